//! Futures that are woken by another thread.
use super::desk::{Act, Desk, Reader, Trial, goes};
use super::job::Job;
use calloop::futures::{Executor, Waker};
use calloop::{Choice, EventDispatcher, Here};
use calloop_script::{ScriptClock, ScriptPoller};
use std::alloc::Global;
use std::sync::Wait;
use std::thread::{Threads, spawn};

#[test]
fn a_future_that_a_thread_wakes_twice_is_polled_once_more(rt: HostRuntime) {
    assert_eq!(rt; goes(&rt, rt.alloc(), Trial::Thread), Some(true));
}

// Whether a future that hands its waker to a thread, which wakes it twice and is joined, is polled once more, and finishes.
pub fn is_woken_by_a_thread<D, R>(rt: &R, alloc: Global) -> Option<bool>
where
    D: EventDispatcher<ScriptPoller, ScriptClock, R, Data = Vec<u32>>,
    D: Choice<Executor<Job<R>, R>, Reader, Here>,
    R: Threads + Wait + Clone + Drop + Send + Sync + 'static,
{
    let mut desk: Desk<D, R> = Desk::new(rt, alloc)?;
    let begun = desk.play(&[
        Act::Make,
        Act::Insert,
        Act::Wait(7),
        Act::Says(Some(0), &[]),
    ]);
    let waker = desk.outbox().take()?;
    let child = spawn(rt, move || wakes_twice(waker)).ok()?;
    let joined = child.join(rt);
    let ended = desk.play(&[Act::Says(Some(0), &[7]), Act::Polled(2)]);
    Some(joined && begun.is_none() && ended.is_none())
}

fn wakes_twice<R: Wait + Drop>(waker: Waker<R>) -> bool {
    waker.wake();
    waker.wake();
    true
}
