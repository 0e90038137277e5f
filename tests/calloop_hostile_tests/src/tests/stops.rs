//! A wait of the machine's poller that is interrupted: `checks/stops` stops this test's process in its wait, and lets it go on.
use calloop::{
    Clock, Dispatcher, EventDispatcher, Instant, MioPoller, PingSource, Sources, SystemClock,
    SystemLoop,
};
use calloop_test_sources::source::Teller;
use std::alloc::Global;
use std::net::Net;
use std::sync::Wait;
use std::test::Fail;
use std::thread::{sleep, spawn};
use std::time::{Clock as MachineClock, Duration};

// It ends no earlier than it is to. It may be late by a tenth, and by what the machine's load explains: twice what a sleep of a thread is late that
// has as long to sleep.
#[test]
fn a_wait_that_is_interrupted_goes_on_to_its_end(rt: HostRuntime) -> Result<(), Fail> {
    let of_thread = rt.clone()?;
    let sleeper = spawn(&rt, move || sleeps(&of_thread))?;
    let lasted = lasts::<Held<HostRuntime>, HostRuntime>(&rt, rt.alloc());
    let slept = sleeper.join(&rt);
    let late = slept.saturating_sub(WAIT * 1_000_000);
    let most = (WAIT + WAIT / 10) * 1_000_000;
    let lasted = lasted.unwrap_or(0);
    assert!(rt; lasted >= WAIT * 1_000_000);
    assert!(rt; lasted <= most.saturating_add(late).saturating_add(late));
    Ok(())
}

type Held<R> = Sources<Dispatcher<PingSource<R>, Teller>, Vec<u32>>;

// For how many milliseconds the loop is to wait.
const WAIT: u64 = 800;

// How many nanoseconds a sleep of that time takes.
fn sleeps<R: MachineClock + Clone + Drop>(rt: &R) -> u64 {
    let Ok(clock) = SystemClock::new(rt) else {
        return 0;
    };
    let began = clock.now();
    sleep(rt, Duration::from_millis(WAIT));
    between(began, clock.now())
}

// How many nanoseconds a dispatch of a loop without sources takes that is to wait for that time.
fn lasts<D, R>(rt: &R, alloc: Global) -> Option<u64>
where
    D: EventDispatcher<MioPoller<SystemClock<R>>, SystemClock<R>, R, Data = Vec<u32>>,
    R: Net + MachineClock + Wait + Clone + Drop,
{
    let mut event_loop: SystemLoop<D, R> = SystemLoop::system(rt, alloc).ok()?;
    let mut said = Vec::new(alloc);
    let began = event_loop.clock().now();
    event_loop
        .dispatch(rt, Some(Duration::from_millis(WAIT)), &mut said)
        .ok()?;
    Some(between(began, event_loop.clock().now()))
}

fn between(began: Instant, ended: Instant) -> u64 {
    ended.nanos.saturating_sub(began.nanos)
}
