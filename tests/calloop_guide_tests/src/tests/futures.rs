//! Futures.
use calloop::futures::{Context, Executor, Future, Poll, make_executor};
use calloop::{
    Dispatcher, Error, EventDispatcher, Here, LoopHold, On, Result, ScriptLoop, Sources,
};
use calloop_script::{ScriptClock, ScriptPoller};
use std::alloc::Global;
use std::sync::Wait;
use std::test::Fail;
use std::time::Duration;

#[test]
fn a_future_gives_its_number_at_its_second_poll(rt: HostRuntime) -> std::result::Result<(), Fail> {
    let sum = sum::<Held<HostRuntime>, HostRuntime>(&rt, rt.alloc());
    assert!(rt; sum.is_ok_and(|sum| sum == 3));
    Ok(())
}

/// Adds up what the futures give.
#[derive(Drop)]
struct Adds;

impl On<u64, u64, ()> for Adds {
    fn on(&mut self, number: u64, sum: &mut u64) {
        *sum = sum.saturating_add(number);
    }
}

/// Gives its number at its second poll.
#[derive(Drop)]
struct Later {
    polled: bool,
    number: u64,
}

impl<R: Wait + Clone + Drop> Future<R> for Later {
    type Output = u64;

    fn poll(&mut self, cx: &mut Context<'_, R>) -> Poll<u64> {
        if self.polled {
            return Poll::Ready(self.number);
        }
        self.polled = true;
        cx.waker().wake();
        Poll::Pending
    }
}

type Held<R> = Sources<Dispatcher<Executor<Later, R>, Adds>, u64>;

fn sum<D, R>(rt: &R, alloc: Global) -> Result<u64>
where
    D: EventDispatcher<ScriptPoller, ScriptClock, R, Data = u64, Idle = ()>,
    D: LoopHold<Executor<Later, R>, Adds, ScriptPoller, ScriptClock, R, Here>,
    R: Wait + Clone + Drop,
{
    let mut event_loop: ScriptLoop<D, R> = ScriptLoop::with_script(rt, alloc)?;
    let (executor, scheduler) = make_executor(rt, alloc)?;
    event_loop.handle().insert_source(executor, Adds)?;
    for number in 1..=2 {
        let later = Later {
            polled: false,
            number,
        };
        if scheduler.schedule(later).is_err() {
            return Err(Error::OutOfMemory);
        }
    }
    let mut sum = 0;
    event_loop.dispatch(rt, Some(Duration::ZERO), &mut sum)?;
    Ok(sum)
}
