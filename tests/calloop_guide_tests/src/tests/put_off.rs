//! A timer that is put off.
use calloop::channel::{Channel, Event, make_channel};
use calloop::{
    Callback, Clock, Dispatcher, Error, Instant, On, OneOf, RegistrationToken, Requests, Result,
    ScriptLoop, Sources, TimeoutAction, Timer,
};
use calloop_script::ScriptClock;
use std::alloc::Global;
use std::sync::Wait;
use std::test::Fail;
use std::time::Duration;

#[test]
fn a_burst_ends_a_while_after_its_last_message(rt: HostRuntime) -> std::result::Result<(), Fail> {
    let lengths = lengths(&rt, rt.alloc());
    assert!(rt; lengths.is_ok_and(|lengths| lengths.as_slice() == [3u32, 1].as_slice()));
    Ok(())
}

#[test]
fn a_timer_that_is_started_again_ends_a_while_after_the_last_start(
    rt: HostRuntime,
) -> std::result::Result<(), Fail> {
    let pauses = pauses(&rt, rt.alloc());
    assert!(rt; pauses.is_ok_and(|pauses| pauses == 2));
    Ok(())
}

/// What a dispatch lends: the burst so far, when it ends, and how long the earlier ones were.
#[derive(Drop)]
struct Bursts {
    clock: ScriptClock,
    count: u32,
    ends: Instant,
    lengths: Vec<u32>,
}

/// Counts messages, each of which puts the end of the burst off. The first one asks for a timer.
#[derive(Drop)]
struct Counts;

impl<R: Wait + Drop> Callback<Event<()>, (), (), Bursts, Requests<Held<R>>> for Counts {
    fn call(
        &mut self,
        event: Event<()>,
        _: &mut (),
        bursts: &mut Bursts,
        requests: &mut Requests<Held<R>>,
    ) {
        let Event::Msg(()) = event else { return };
        bursts.ends = bursts.clock.now().after(Duration::from_millis(50));
        if bursts.count == 0 {
            let _ticket = requests.insert_source(Timer::from_deadline(bursts.ends), Notes);
        }
        bursts.count = bursts.count.saturating_add(1);
    }
}

/// Notes the length of the burst, if its end has come. Else it waits on.
#[derive(Drop)]
struct Notes;

impl On<Instant, Bursts, TimeoutAction> for Notes {
    fn on(&mut self, deadline: Instant, bursts: &mut Bursts) -> TimeoutAction {
        if deadline < bursts.ends {
            return TimeoutAction::ToInstant(bursts.ends);
        }
        let _failed = bursts.lengths.push(bursts.count);
        bursts.count = 0;
        TimeoutAction::Drop
    }
}

type Held<R> = Sources<OneOf<Dispatcher<Channel<(), R>, Counts>, Dispatcher<Timer, Notes>>, Bursts>;

fn lengths<R: Wait + Clone + Drop>(rt: &R, alloc: Global) -> Result<Vec<u32>> {
    let mut event_loop: ScriptLoop<Held<R>, R> = ScriptLoop::with_script(rt, alloc)?;
    let (sender, channel) = make_channel(rt, alloc)?;
    event_loop.handle().insert_source(channel, Counts)?;
    let mut bursts = Bursts {
        clock: event_loop.clock().clone()?,
        count: 0,
        ends: Instant::from_millis(0),
        lengths: Vec::new(alloc),
    };
    // Three messages within 40 milliseconds, and one behind their burst.
    for pause in [10, 10, 1000, 1000] {
        if sender.send(()).is_err() {
            return Err(Error::OutOfMemory);
        }
        for millis in [0, pause, pause] {
            event_loop.dispatch(rt, Some(Duration::from_millis(millis)), &mut bursts)?;
        }
    }
    Ok(bursts.lengths)
}

/// What a dispatch lends: the timer, and how often it came to its end.
#[derive(Drop)]
struct Quiet {
    clock: ScriptClock,
    timer: RegistrationToken,
    pauses: u32,
}

/// Starts the timer again with each message.
#[derive(Drop)]
struct Starts;

impl<R: Wait + Drop> Callback<Event<()>, (), (), Quiet, Requests<Watched<R>>> for Starts {
    fn call(
        &mut self,
        event: Event<()>,
        _: &mut (),
        quiet: &mut Quiet,
        requests: &mut Requests<Watched<R>>,
    ) {
        let Event::Msg(()) = event else { return };
        let ends = quiet.clock.now().after(Duration::from_millis(50));
        let _ticket = requests.set_deadline(&quiet.timer, ends);
    }
}

/// Counts a pause, and waits for the next start.
#[derive(Drop)]
struct Pauses;

impl On<Instant, Quiet, TimeoutAction> for Pauses {
    fn on(&mut self, _deadline: Instant, quiet: &mut Quiet) -> TimeoutAction {
        quiet.pauses = quiet.pauses.saturating_add(1);
        TimeoutAction::ToInstant(Instant::from_nanos(u64::MAX))
    }
}

type Watched<R> =
    Sources<OneOf<Dispatcher<Channel<(), R>, Starts>, Dispatcher<Timer, Pauses>>, Quiet>;

fn pauses<R: Wait + Clone + Drop>(rt: &R, alloc: Global) -> Result<u32> {
    let mut event_loop: ScriptLoop<Watched<R>, R> = ScriptLoop::with_script(rt, alloc)?;
    let (sender, channel) = make_channel(rt, alloc)?;
    event_loop.handle().insert_source(channel, Starts)?;
    let never = Timer::from_deadline(Instant::from_nanos(u64::MAX));
    let timer = event_loop.handle().insert_source(never, Pauses)?;
    let mut quiet = Quiet {
        clock: event_loop.clock().clone()?,
        timer,
        pauses: 0,
    };
    // Three messages within 40 milliseconds, and one behind their pause.
    for pause in [10, 10, 1000, 1000] {
        if sender.send(()).is_err() {
            return Err(Error::OutOfMemory);
        }
        for millis in [0, pause, pause] {
            event_loop.dispatch(rt, Some(Duration::from_millis(millis)), &mut quiet)?;
        }
    }
    Ok(quiet.pauses)
}
