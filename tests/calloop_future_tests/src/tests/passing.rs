//! A timeout whose moment comes while it is polled.
use super::desk::{Reader, time};
use calloop::futures::{Context, Executor, Future, Poll, make_executor};
use calloop::loop_logic::EventLoop;
use calloop::{
    Choice, Clock, Dispatcher, EventDispatcher, Here, Instant, Keep, OneOf, Requests, Sources,
    There, TimeoutFuture, TimeoutTimer,
};
use calloop_script::ScriptPoller;
use std::alloc::{AllocError, Global};
use std::sync::atomic::{AtomicU64, Ordering};
use std::sync::{Arc, Wait};

// The moment of the timeout, in nanoseconds.
const MOMENT: u64 = 5_000_000;

#[test]
fn a_timeout_whose_moment_comes_while_it_is_polled_is_ready_at_once(rt: HostRuntime) {
    let said = is_said_at_once::<Held<HostRuntime>, HostRuntime>(&rt, rt.alloc());
    assert_eq!(rt; said, Some(true));
}

/// Shows 0, and the moment of the timeout once so many readings are over.
#[derive(Drop)]
struct Passing {
    readings: Arc<AtomicU64, Global>,
}

impl Clone for Passing {
    ghost is_clone = { λ clock again. Unit {0} };

    fn clone(&self) -> Result<Passing, AllocError> {
        Ok(Passing {
            readings: Arc::try_clone(&self.readings)?,
        })
    }
}

impl Clock for Passing {
    ghost shows = { λ clock now. Unit {0} };

    fn now(&self) -> Instant {
        let left = self.readings.load(Ordering::SeqCst);
        if left == 0 {
            return Instant::from_nanos(MOMENT);
        }
        self.readings.store(left - 1, Ordering::SeqCst);
        Instant::from_nanos(0)
    }
}

/// Gives 1 once its moment has come, which comes behind the first reading of its first poll.
#[derive(Drop)]
struct Sleeper<R: Wait + Drop> {
    timeout: TimeoutFuture<Passing, R>,
    readings: Arc<AtomicU64, Global>,
}

impl<R: Wait + Clone + Drop> Future<R> for Sleeper<R> {
    type Output = u32;

    fn poll(&mut self, cx: &mut Context<'_, R>) -> Poll<u32> {
        self.readings.store(1, Ordering::SeqCst);
        match self.timeout.poll(cx) {
            Poll::Ready(()) => Poll::Ready(1),
            Poll::Pending => Poll::Pending,
        }
    }
}

/// What a loop of such futures holds.
type Held<R> = Sources<
    OneOf<Dispatcher<Executor<Sleeper<R>, R>, Reader>, TimeoutTimer<R>>,
    Vec<u32>,
>;

// Whether the dispatch that polls it hands its number out.
fn is_said_at_once<D, R>(rt: &R, alloc: Global) -> Option<bool>
where
    D: EventDispatcher<ScriptPoller, Passing, R, Data = Vec<u32>, Idle = ()>,
    D: Choice<Executor<Sleeper<R>, R>, Reader, Here>,
    D: Keep<TimeoutTimer<R>, ScriptPoller, Passing, R, Vec<u32>, Requests<D>, There<Here>>,
    R: Wait + Clone + Drop,
{
    let readings = Arc::new(alloc, AtomicU64::new(u64::MAX)).ok()?;
    let clock = Passing {
        readings: Arc::try_clone(&readings).ok()?,
    };
    let poller = ScriptPoller::new(alloc).ok()?;
    let mut event_loop: EventLoop<D, ScriptPoller, Passing, R> =
        EventLoop::try_new(rt, alloc, poller, clock).ok()?;
    let (executor, scheduler) = make_executor(rt, alloc).ok()?;
    let held = D::hold(Dispatcher::new(executor, Reader));
    event_loop.handle().register_dispatcher(held).ok()?;
    let moment = Instant::from_nanos(MOMENT);
    let timeout = TimeoutFuture::from_deadline(&mut event_loop.handle(), rt, alloc, moment).ok()?;
    scheduler.schedule(Sleeper { timeout, readings }).ok()?;
    let mut said = Vec::new(alloc);
    event_loop.dispatch(rt, time(Some(0)), &mut said).ok()?;
    Some(said.as_slice() == [1].as_slice())
}
