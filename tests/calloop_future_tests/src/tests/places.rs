//! Futures that a callback schedules, and threads that schedule beside the polls.
use super::desk::Reader;
use calloop::futures::{Context, Executor, Future, Poll, Scheduler, make_executor};
use calloop::{Choice, Dispatcher, EventDispatcher, Here, On, ScriptLoop, Sources};
use calloop_script::{ScriptClock, ScriptPoller};
use std::alloc::Global;
use std::sync::atomic::{AtomicU32, Ordering};
use std::sync::{Arc, Wait};
use std::thread::{JoinHandle, Threads, spawn, yield_now};
use std::time::Duration;

#[test]
fn a_callback_schedules_another_future_in_place_of_the_one_that_is_done(rt: HostRuntime) {
    let said = says_below::<Repeating<HostRuntime>, HostRuntime>(&rt, rt.alloc());
    assert_eq!(rt; said, Some(true));
}

#[test]
fn each_future_that_threads_schedule_beside_the_polls_is_polled(rt: HostRuntime) {
    let polled = polls_all_of_threads::<Held<HostRuntime>, HostRuntime>(&rt, rt.alloc());
    assert_eq!(rt; polled, Some(true));
}

// How many threads schedule futures, and how many each.
const THREADS: u32 = 2;

const EACH: u32 = 1_000;

// How often a thread looks whether its future was polled, until it takes it for lost.
const LOOKS: u32 = 200_000;

/// What a future does.
#[derive(Drop)]
enum Task {
    /// It gives this at once.
    Gives(u32),
    /// It counts its poll, and gives 0.
    Counts(Arc<AtomicU32, Global>),
    /// It wakes itself until all threads have ended.
    Spins(Arc<AtomicU32, Global>),
}

impl<R: Wait + Drop> Future<R> for Task {
    type Output = u32;

    fn poll(&mut self, cx: &mut Context<'_, R>) -> Poll<u32> {
        match self {
            Task::Gives(number) => Poll::Ready(*number),
            Task::Counts(counter) => {
                counter.fetch_add(1, Ordering::SeqCst);
                Poll::Ready(0)
            }
            Task::Spins(ended) => {
                if ended.load(Ordering::SeqCst) == THREADS {
                    return Poll::Ready(0);
                }
                cx.waker().wake();
                Poll::Pending
            }
        }
    }
}

/// What a loop of such futures holds.
type Held<R> = Sources<Dispatcher<Executor<Task, R>, Reader>, Vec<u32>>;

/// Says each number, and schedules a future that gives the one below it.
#[derive(Drop)]
struct Repeats<R: Wait + Clone + Drop> {
    scheduler: Scheduler<Task, R>,
}

impl<R: Wait + Clone + Drop> On<u32, Vec<u32>, ()> for Repeats<R> {
    fn on(&mut self, number: u32, said: &mut Vec<u32>) {
        let _failed = said.push(number);
        if let Some(next) = number.checked_sub(1) {
            let _failed = self.scheduler.schedule(Task::Gives(next));
        }
    }
}

/// What a loop of these holds.
type Repeating<R> = Sources<Dispatcher<Executor<Task, R>, Repeats<R>>, Vec<u32>>;

// Whether futures that a callback schedules, each while the one before it has just given its number, give theirs in one dispatch.
fn says_below<D, R>(rt: &R, alloc: Global) -> Option<bool>
where
    D: EventDispatcher<ScriptPoller, ScriptClock, R, Data = Vec<u32>>,
    D: Choice<Executor<Task, R>, Repeats<R>, Here>,
    R: Wait + Clone + Drop,
{
    let mut event_loop: ScriptLoop<D, R> = ScriptLoop::with_script(rt, alloc).ok()?;
    let (executor, scheduler) = make_executor(rt, alloc).ok()?;
    let again = scheduler.clone().ok()?;
    let held = D::hold(Dispatcher::new(executor, Repeats { scheduler: again }));
    event_loop.handle().register_dispatcher(held).ok()?;
    scheduler.schedule(Task::Gives(3)).ok()?;
    scheduler.schedule(Task::Gives(1)).ok()?;
    let mut said = Vec::new(alloc);
    event_loop
        .dispatch(rt, Some(Duration::ZERO), &mut said)
        .ok()?;
    Some(said.as_slice() == [3, 1, 2, 0, 1, 0].as_slice())
}

// An executor in a loop.
fn insert_executor<D, R>(
    rt: &R,
    alloc: Global,
    event_loop: &mut ScriptLoop<D, R>,
) -> Option<Scheduler<Task, R>>
where
    D: EventDispatcher<ScriptPoller, ScriptClock, R, Data = Vec<u32>>,
    D: Choice<Executor<Task, R>, Reader, Here>,
    R: Wait + Clone + Drop,
{
    let (executor, scheduler) = make_executor(rt, alloc).ok()?;
    let held = D::hold(Dispatcher::new(executor, Reader));
    event_loop.handle().register_dispatcher(held).ok()?;
    Some(scheduler)
}

// Whether each future that two threads schedule is polled by a loop that polls another one again and again meanwhile. Each thread schedules
// the next one only then, so that it is polled as soon as it is queued.
fn polls_all_of_threads<D, R>(rt: &R, alloc: Global) -> Option<bool>
where
    D: EventDispatcher<ScriptPoller, ScriptClock, R, Data = Vec<u32>>,
    D: Choice<Executor<Task, R>, Reader, Here>,
    R: Threads + Wait + Clone + Drop + Send + Sync + 'static,
{
    let mut event_loop: ScriptLoop<D, R> = ScriptLoop::with_script(rt, alloc).ok()?;
    let scheduler = insert_executor(rt, alloc, &mut event_loop)?;
    let ended = Arc::new(alloc, AtomicU32::new(0)).ok()?;
    let of_spinner = Arc::try_clone(&ended).ok()?;
    scheduler.schedule(Task::Spins(of_spinner)).ok()?;
    let one = schedules(rt, alloc, &scheduler, &ended)?;
    let two = schedules(rt, alloc, &scheduler, &ended)?;
    let mut said = Vec::new(alloc);
    for _ in rt.forever() {
        if ended.load(Ordering::SeqCst) == THREADS {
            break;
        }
        said.clear();
        event_loop
            .dispatch(rt, Some(Duration::ZERO), &mut said)
            .ok()?;
    }
    Some(one.join(rt) && two.join(rt))
}

// A thread that schedules, and counts its end.
fn schedules<R>(
    rt: &R,
    alloc: Global,
    scheduler: &Scheduler<Task, R>,
    ended: &Arc<AtomicU32, Global>,
) -> Option<JoinHandle<bool>>
where
    R: Threads + Wait + Clone + Drop + Send + Sync + 'static,
{
    let own = scheduler.clone().ok()?;
    let polled = Arc::new(alloc, AtomicU32::new(0)).ok()?;
    let ends = Arc::try_clone(ended).ok()?;
    spawn(rt, move || {
        let all = (1..=EACH).all(|number| is_polled(&own, &polled, number));
        ends.fetch_add(1, Ordering::SeqCst);
        all
    })
    .ok()
}

// Schedules one that counts its poll: whether it is polled, in the time that a test has.
fn is_polled<R: Wait + Clone + Drop>(
    scheduler: &Scheduler<Task, R>,
    polled: &Arc<AtomicU32, Global>,
    number: u32,
) -> bool {
    let Ok(counter) = Arc::try_clone(polled) else {
        return false;
    };
    if scheduler.schedule(Task::Counts(counter)).is_err() {
        return false;
    }
    for _ in 0..LOOKS {
        if polled.load(Ordering::SeqCst) == number {
            return true;
        }
        yield_now();
    }
    false
}
