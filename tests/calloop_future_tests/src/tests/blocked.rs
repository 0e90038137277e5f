//! Loops that run until a future is done.
use super::desk::{Trial, goes};
use super::job::{Job, Outbox};
use calloop::{EventDispatcher, LoopSignal, ScriptLoop};
use calloop_script::{ScriptClock, ScriptPoller};
use std::alloc::Global;
use std::sync::{Arc, Wait};

#[test]
fn a_ready_future_is_the_answer_without_a_wait(rt: HostRuntime) {
    assert_eq!(rt; goes(&rt, rt.alloc(), Trial::RunsForReady), Some(true));
}

#[test]
fn a_future_that_wakes_itself_is_polled_again_after_one_wait(rt: HostRuntime) {
    assert_eq!(rt; goes(&rt, rt.alloc(), Trial::RunsForYielding), Some(true));
}

#[test]
fn a_loop_that_is_stopped_gives_nothing(rt: HostRuntime) {
    assert_eq!(rt; goes(&rt, rt.alloc(), Trial::RunsUntilStopped), Some(true));
}

#[test]
fn a_future_that_nobody_wakes_is_polled_once(rt: HostRuntime) {
    assert_eq!(rt; goes(&rt, rt.alloc(), Trial::RunsForWaiting), Some(true));
}

#[test]
fn a_future_that_is_woken_in_the_call_that_stops_the_loop_is_not_polled_again(rt: HostRuntime) {
    assert_eq!(rt;
        goes(&rt, rt.alloc(), Trial::RunIsStoppedBehindAWake),
        Some(true)
    );
}

pub fn runs_for_ready<D, R>(rt: &R, alloc: Global) -> Option<bool>
where
    D: EventDispatcher<ScriptPoller, ScriptClock, R, Data = Vec<u32>>,
    R: Wait + Clone + Drop,
{
    Some(ends::<D, R>(rt, alloc, Job::Gives(7), u32::MAX)? == (Some(7), 0))
}

pub fn runs_for_yielding<D, R>(rt: &R, alloc: Global) -> Option<bool>
where
    D: EventDispatcher<ScriptPoller, ScriptClock, R, Data = Vec<u32>>,
    R: Wait + Clone + Drop,
{
    Some(ends::<D, R>(rt, alloc, Job::Yields(1, 7), u32::MAX)? == (Some(7), 1))
}

pub fn runs_until_stopped<D, R>(rt: &R, alloc: Global) -> Option<bool>
where
    D: EventDispatcher<ScriptPoller, ScriptClock, R, Data = Vec<u32>>,
    R: Wait + Clone + Drop,
{
    Some(ends::<D, R>(rt, alloc, Job::Yields(1, 7), 1)? == (None, 1))
}

// What a loop that runs for a future answers, which is stopped at this call, and how many waits were asked, each without limit.
fn ends<D, R>(rt: &R, alloc: Global, job: Job<R>, stops_at: u32) -> Option<(Option<u32>, usize)>
where
    D: EventDispatcher<ScriptPoller, ScriptClock, R, Data = Vec<u32>>,
    R: Wait + Clone + Drop,
{
    let mut event_loop: ScriptLoop<D, R> = ScriptLoop::with_script(rt, alloc).ok()?;
    event_loop.handle().poller_mut().keep_waits(4).ok()?;
    let signal = event_loop.get_signal().ok()?;
    let mut said = Vec::new(alloc);
    let mut calls = 0u32;
    // it is forgotten
    signal.stop();
    let answer = event_loop.block_on(rt, alloc, job, &mut said, |_said| {
        calls = calls.saturating_add(1);
        stops_where(&signal, calls >= stops_at);
    });
    let mut handle = event_loop.handle();
    let waits = handle.poller_mut().waits();
    if waits.iter().any(|wait| wait.is_some()) {
        return None;
    }
    Some((answer.ok()?, waits.len()))
}

// Whether a future is polled once that nobody wakes, in a run that is stopped at its third call.
pub fn polls_once<D, R>(rt: &R, alloc: Global) -> Option<bool>
where
    D: EventDispatcher<ScriptPoller, ScriptClock, R, Data = Vec<u32>>,
    R: Wait + Clone + Drop,
{
    let outbox = Arc::new(alloc, Outbox::new(rt.clone().ok()?)).ok()?;
    let job = Job::Waits(Arc::try_clone(&outbox).ok()?, 7);
    let ended = ends::<D, R>(rt, alloc, job, 3)?;
    Some(ended == (None, 3) && outbox.polls() == 1)
}

// Whether a loop that runs for a future, which is woken and then stopped at its first call, gives nothing and polled it once.
pub fn is_stopped_behind_a_wake<D, R>(rt: &R, alloc: Global) -> Option<bool>
where
    D: EventDispatcher<ScriptPoller, ScriptClock, R, Data = Vec<u32>>,
    R: Wait + Clone + Drop,
{
    let mut event_loop: ScriptLoop<D, R> = ScriptLoop::with_script(rt, alloc).ok()?;
    let signal = event_loop.get_signal().ok()?;
    let outbox = Arc::new(alloc, Outbox::new(rt.clone().ok()?)).ok()?;
    let job = Job::Waits(Arc::try_clone(&outbox).ok()?, 7);
    let mut said = Vec::new(alloc);
    let mut is_woken = true;
    let answer = event_loop.block_on(rt, alloc, job, &mut said, |_said| {
        is_woken = outbox.wakes(1) && is_woken;
        signal.stop();
    });
    Some(answer.ok()?.is_none() && is_woken && outbox.polls() == 1)
}

fn stops_where(signal: &LoopSignal, stops: bool) {
    if stops {
        signal.stop();
    }
}
