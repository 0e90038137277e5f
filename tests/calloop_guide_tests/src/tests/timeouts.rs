//! Futures that wait for a moment.
use calloop::futures::{Context, Executor, Future, Poll, make_executor};
use calloop::{
    Clock, Dispatcher, Error, EventDispatcher, Here, Instant, LoopHold, LoopKeep, On, OneOf,
    Result, ScriptLoop, Sources, There, TimeoutFuture, TimeoutTimer,
};
use calloop_script::{ScriptClock, ScriptPoller};
use std::alloc::Global;
use std::sync::Wait;
use std::test::Fail;

#[test]
fn a_future_gives_its_number_once_its_moment_has_come(
    rt: HostRuntime,
) -> std::result::Result<(), Fail> {
    let sum = sum::<Held<ScriptClock, HostRuntime>, HostRuntime>(&rt, rt.alloc());
    assert!(rt; sum.is_ok_and(|sum| sum == (0, 9)));
    Ok(())
}

/// Adds up what the futures give.
#[derive(Drop)]
struct Adds;

impl On<u64, u64, ()> for Adds {
    fn on(&mut self, number: u64, sum: &mut u64) {
        *sum = sum.saturating_add(number);
    }
}

/// Gives its number once its moment has come.
#[derive(Drop)]
struct Sleeper<C: Clock, R: Wait + Drop> {
    timeout: TimeoutFuture<C, R>,
    number: u64,
}

impl<C: Clock, R: Wait + Clone + Drop> Future<R> for Sleeper<C, R> {
    type Output = u64;

    fn poll(&mut self, cx: &mut Context<'_, R>) -> Poll<u64> {
        match self.timeout.poll(cx) {
            Poll::Ready(()) => Poll::Ready(self.number),
            Poll::Pending => Poll::Pending,
        }
    }
}

type Held<C, R> = Sources<
    OneOf<Dispatcher<Executor<Sleeper<C, R>, R>, Adds>, TimeoutTimer<R>>,
    u64,
>;

fn sum<D, R>(rt: &R, alloc: Global) -> Result<(u64, u64)>
where
    D: EventDispatcher<ScriptPoller, ScriptClock, R, Data = u64, Idle = ()>,
    D: LoopHold<Executor<Sleeper<ScriptClock, R>, R>, Adds, ScriptPoller, ScriptClock, R, Here>,
    D: LoopKeep<TimeoutTimer<R>, ScriptPoller, ScriptClock, R, There<Here>>,
    R: Wait + Clone + Drop,
{
    let mut event_loop: ScriptLoop<D, R> = ScriptLoop::with_script(rt, alloc)?;
    let (executor, scheduler) = make_executor(rt, alloc)?;
    event_loop.handle().insert_source(executor, Adds)?;

    let deadline = Instant::from_millis(5);
    let timeout = TimeoutFuture::from_deadline(&mut event_loop.handle(), rt, alloc, deadline)?;

    let sleeper = Sleeper { timeout, number: 9 };
    if scheduler.schedule(sleeper).is_err() {
        return Err(Error::OutOfMemory);
    }
    let mut early = 0;
    event_loop.dispatch(rt, None, &mut early)?;
    let mut sum = early;
    for _ in 0..2 {
        event_loop.dispatch(rt, None, &mut sum)?;
        if sum > 0 {
            break;
        }
    }
    Ok((early, sum))
}
