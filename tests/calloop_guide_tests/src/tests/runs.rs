//! Runs and their end.
use calloop::futures::{Context, Future, Poll};
use calloop::{
    Dispatcher, EventDispatcher, Here, Instant, LoopHold, LoopSignal, On, Result, ScriptLoop,
    Sources, TimeoutAction, Timer,
};
use calloop_script::{ScriptClock, ScriptPoller};
use std::alloc::Global;
use std::sync::Wait;
use std::test::Fail;

#[test]
fn a_run_ends_by_a_stop_and_another_gives_what_a_future_gives(
    rt: HostRuntime,
) -> std::result::Result<(), Fail> {
    let gave = both::<Held, HostRuntime>(&rt, rt.alloc());
    assert!(rt; gave.is_ok_and(|gave| gave == (1, Some(7))));
    Ok(())
}

type Held = Sources<Dispatcher<Timer, Stops>, u64>;

/// Counts a call, and stops the run.
#[derive(Drop)]
struct Stops {
    signal: LoopSignal,
}

impl On<Instant, u64, TimeoutAction> for Stops {
    fn on(&mut self, _deadline: Instant, calls: &mut u64) -> TimeoutAction {
        *calls = calls.saturating_add(1);
        self.signal.stop();
        TimeoutAction::Drop
    }
}

/// Gives seven at once.
#[derive(Drop)]
struct Seven;

impl<R: Wait + Drop> Future<R> for Seven {
    type Output = u64;

    fn poll(&mut self, _cx: &mut Context<'_, R>) -> Poll<u64> {
        Poll::Ready(7)
    }
}

fn both<D, R>(rt: &R, alloc: Global) -> Result<(u64, Option<u64>)>
where
    D: EventDispatcher<ScriptPoller, ScriptClock, R, Data = u64, Idle = ()>,
    D: LoopHold<Timer, Stops, ScriptPoller, ScriptClock, R, Here>,
    R: Wait + Clone + Drop,
{
    let mut event_loop: ScriptLoop<D, R> = ScriptLoop::with_script(rt, alloc)?;
    let mut data = 0;
    let future = Seven;

    let signal = event_loop.get_signal()?;
    let timer = Timer::from_deadline(Instant::from_millis(5));
    event_loop.handle().insert_source(timer, Stops { signal })?;
    event_loop.run(rt, None, &mut data, |_data| {})?;

    let gave = event_loop.block_on(rt, alloc, future, &mut data, |_data| {})?;

    Ok((data, gave))
}
