//! Futures whose drop schedules another one: it hangs if one is dropped within the lock of their places.
use super::desk::Reader;
use calloop::futures::{Context, Executor, Future, Poll, Scheduler, make_executor};
use calloop::{Choice, Dispatcher, EventDispatcher, Here, ScriptLoop, Sources};
use calloop_script::{ScriptClock, ScriptPoller};
use std::alloc::Global;
use std::sync::atomic::{AtomicU32, Ordering};
use std::sync::{Arc, Wait};
use std::time::Duration;

#[test]
fn the_drop_of_a_future_that_is_done_schedules_another(rt: HostRuntime) {
    let trial = falls::<Held<HostRuntime>, HostRuntime>(&rt, rt.alloc(), Ends::Done);
    assert_eq!(rt; trial, Some((true, SCHEDULED)));
}

#[test]
fn the_drop_of_a_future_whose_executor_goes_is_refused_another(rt: HostRuntime) {
    let trial = falls::<Held<HostRuntime>, HostRuntime>(&rt, rt.alloc(), Ends::Pending);
    assert_eq!(rt; trial, Some((true, REFUSED)));
}

#[test]
fn the_drop_of_a_future_that_was_never_polled_is_refused_another(rt: HostRuntime) {
    let trial = falls::<Held<HostRuntime>, HostRuntime>(&rt, rt.alloc(), Ends::Unpolled);
    assert_eq!(rt; trial, Some((true, REFUSED)));
}

// What comes of the future that a drop schedules.
const SCHEDULED: u32 = 1;

const REFUSED: u32 = 100;

/// How a future with an heir ends.
#[derive(Clone, Copy, PartialEq, Eq)]
enum Ends {
    /// It gives 1 at its first poll.
    Done,
    /// It is pending until its executor goes.
    Pending,
    /// Its executor goes before it is polled.
    Unpolled,
}

/// Schedules a future that gives 2 when it is dropped, and counts how that ends.
struct Heir<R: Wait + Clone + Drop> {
    scheduler: Scheduler<Task<R>, R>,
    outcome: Arc<AtomicU32, Global>,
}

impl<R: Wait + Clone + Drop> Drop for Heir<R> {
    fn drop(self) {
        let Heir { scheduler, outcome } = self;
        let count = match scheduler.schedule(Task::Gives(2)) {
            Ok(_receipt) => SCHEDULED,
            Err(_refusal) => REFUSED,
        };
        outcome.fetch_add(count, Ordering::SeqCst);
    }
}

/// What a future does.
#[derive(Drop)]
enum Task<R: Wait + Clone + Drop> {
    /// It gives this at once.
    Gives(u32),
    Leaves(Ends, Heir<R>),
}

impl<R: Wait + Clone + Drop> Future<R> for Task<R> {
    type Output = u32;

    fn poll(&mut self, _cx: &mut Context<'_, R>) -> Poll<u32> {
        match self {
            Task::Gives(number) => Poll::Ready(*number),
            Task::Leaves(Ends::Done, _) => Poll::Ready(1),
            Task::Leaves(Ends::Pending | Ends::Unpolled, _) => Poll::Pending,
        }
    }
}

/// What a loop of such futures holds.
type Held<R> = Sources<Dispatcher<Executor<Task<R>, R>, Reader>, Vec<u32>>;

// Whether what is said by two dispatches is as it is to be, and what came of the heir's future. Then the executor is gone, if its future
// isn't done.
fn falls<D, R>(rt: &R, alloc: Global, ends: Ends) -> Option<(bool, u32)>
where
    D: EventDispatcher<ScriptPoller, ScriptClock, R, Data = Vec<u32>>,
    D: Choice<Executor<Task<R>, R>, Reader, Here>,
    R: Wait + Clone + Drop,
{
    let mut event_loop: ScriptLoop<D, R> = ScriptLoop::with_script(rt, alloc).ok()?;
    let (executor, scheduler) = make_executor(rt, alloc).ok()?;
    let held = D::hold(Dispatcher::new(executor, Reader));
    let token = event_loop.handle().register_dispatcher(held).ok()?;
    let outcome = Arc::new(alloc, AtomicU32::new(0)).ok()?;
    let heir = Heir {
        scheduler: scheduler.clone().ok()?,
        outcome: Arc::try_clone(&outcome).ok()?,
    };
    scheduler.schedule(Task::Leaves(ends, heir)).ok()?;
    let mut said = Vec::new(alloc);
    if ends != Ends::Unpolled {
        for _ in 0..2u32 {
            event_loop
                .dispatch(rt, Some(Duration::ZERO), &mut said)
                .ok()?;
        }
    }
    let wanted: &[u32] = if ends == Ends::Done { &[1, 2] } else { &[] };
    if ends != Ends::Done {
        drop(event_loop.handle().remove(token)?);
    }
    Some((said.as_slice() == wanted, outcome.load(Ordering::SeqCst)))
}
