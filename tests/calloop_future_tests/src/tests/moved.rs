//! A timeout that is polled by one future, and then by another one.
use super::desk::{Reader, time};
use calloop::futures::{Context, Executor, Future, Poll, Scheduler, make_executor};
use calloop::{
    Choice, Clock, Dispatcher, EventDispatcher, Here, Instant, Keep, OneOf, Requests, ScriptLoop,
    Sources, There, TimeoutFuture, TimeoutTimer,
};
use calloop_script::{ScriptClock, ScriptPoller};
use std::alloc::Global;
use std::sync::{Arc, Mutex, Wait};

#[test]
fn a_timeout_wakes_the_future_that_polled_it_last(rt: HostRuntime) {
    let said = says_last::<Held<HostRuntime>, HostRuntime>(&rt, rt.alloc());
    assert_eq!(rt; said, Some(true));
}

/// Gives its number once the moment has come of a timeout that it shares.
#[derive(Drop)]
struct Sharer<C: Clock, R: Wait + Drop> {
    rt: R,
    timeout: Arc<Mutex<TimeoutFuture<C, R>>, Global>,
    number: u32,
}

impl<C: Clock, R: Wait + Clone + Drop> Future<R> for Sharer<C, R> {
    type Output = u32;

    fn poll(&mut self, cx: &mut Context<'_, R>) -> Poll<u32> {
        match self.timeout.lock(&self.rt).poll(cx) {
            Poll::Ready(()) => Poll::Ready(self.number),
            Poll::Pending => Poll::Pending,
        }
    }
}

/// What a loop of such futures holds.
type Held<R> = Sources<
    OneOf<Dispatcher<Executor<Sharer<ScriptClock, R>, R>, Reader>, TimeoutTimer<R>>,
    Vec<u32>,
>;

// Whether of two futures that polled a timeout the last one gives its number once the moment has come.
fn says_last<D, R>(rt: &R, alloc: Global) -> Option<bool>
where
    D: EventDispatcher<ScriptPoller, ScriptClock, R, Data = Vec<u32>, Idle = ()>,
    D: Choice<Executor<Sharer<ScriptClock, R>, R>, Reader, Here>,
    D: Keep<TimeoutTimer<R>, ScriptPoller, ScriptClock, R, Vec<u32>, Requests<D>, There<Here>>,
    R: Wait + Clone + Drop,
{
    let mut event_loop: ScriptLoop<D, R> = ScriptLoop::with_script(rt, alloc).ok()?;
    let (executor, scheduler) = make_executor(rt, alloc).ok()?;
    let held = D::hold(Dispatcher::new(executor, Reader));
    event_loop.handle().register_dispatcher(held).ok()?;
    let deadline = Instant::from_millis(5);
    let timeout = TimeoutFuture::from_deadline(&mut event_loop.handle(), rt, alloc, deadline);
    let shared = Arc::new(alloc, Mutex::new(timeout.ok()?)).ok()?;
    share(rt, &scheduler, &shared, 1)?;
    share(rt, &scheduler, &shared, 2)?;
    let mut said = Vec::new(alloc);
    event_loop.dispatch(rt, time(Some(0)), &mut said).ok()?;
    event_loop.dispatch(rt, time(Some(5)), &mut said).ok()?;
    let is_early = said.is_empty();
    event_loop.dispatch(rt, time(Some(0)), &mut said).ok()?;
    Some(is_early && said.as_slice() == [2].as_slice())
}

type Shared<R> = Arc<Mutex<TimeoutFuture<ScriptClock, R>>, Global>;

// Schedules a future of this number that polls it.
fn share<R: Wait + Clone + Drop>(
    rt: &R,
    scheduler: &Scheduler<Sharer<ScriptClock, R>, R>,
    shared: &Shared<R>,
    number: u32,
) -> Option<()> {
    let sharer = Sharer {
        rt: rt.clone().ok()?,
        timeout: Arc::try_clone(shared).ok()?,
        number,
    };
    scheduler.schedule(sharer).ok().map(drop)
}
