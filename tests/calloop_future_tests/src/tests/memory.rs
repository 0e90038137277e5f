//! Futures and streams when memory is short: what was refused leaves nothing made, comes back, and goes through at the second try.
//!
//! The kit's unproved run has one allocation refused: `rt try --test --fail-alloc N`.
use super::desk::{self, Trial, are_all, goes};
use super::job::Job;
use calloop::futures::{Context, Executor, Poll, ScheduleError, Scheduler, make_executor};
use calloop::stream::{Stream, StreamSource};
use calloop::{
    Choice, Dispatcher, Error, EventDispatcher, Here, InsertError, On, Result as LoopResult,
    ScriptLoop, Sources,
};
use calloop_script::{ScriptClock, ScriptPoller};
use std::alloc::Global;
use std::sync::Wait;
use std::time::Duration;

// How many futures are scheduled, and how many items the stream has.
const COUNT: u32 = 40;

#[test]
fn want_of_memory_loses_and_doubles_no_future(rt: HostRuntime) {
    assert_eq!(rt;
        goes(&rt, rt.alloc(), Trial::FuturesWithoutMemory),
        Some(true)
    );
}

#[test]
fn want_of_memory_loses_no_item_of_a_stream(rt: HostRuntime) {
    let read = reads_all::<Held<HostRuntime>, HostRuntime>(&rt, rt.alloc());
    assert_eq!(rt; read, Some(true));
}

#[test]
fn a_loop_without_memory_for_a_future_runs_for_the_next_one(rt: HostRuntime) {
    assert_eq!(rt; goes(&rt, rt.alloc(), Trial::RunWithoutMemory), Some(true));
}

// Whether all futures give their numbers, in order and once each, to two schedulers and a loop that had two tries for each call.
pub fn runs_all<D, R>(rt: &R, alloc: Global) -> Option<bool>
where
    D: EventDispatcher<ScriptPoller, ScriptClock, R, Data = Vec<u32>>,
    D: Choice<Executor<Job<R>, R>, desk::Reader, Here>,
    R: Wait + Clone + Drop,
{
    let mut event_loop: ScriptLoop<D, R> = loop_of(rt, alloc)?;
    let (executor, scheduler) = executor_of(rt, alloc)?;
    insert(
        &mut event_loop,
        D::hold(Dispatcher::new(executor, desk::Reader)),
    )?;
    let first = schedules_all(&scheduler, 0);
    let again = clone_of(&scheduler)?;
    drop(scheduler);
    let second = schedules_all(&again, COUNT);
    let mut said = room(alloc)?;
    let went = dispatches(rt, &mut event_loop, &mut said);
    Some(first && second && went && are_all(&said, 0..2 * COUNT))
}

// Whether the numbers from this one on are scheduled, each as a future that wakes itself once, by one of two tries.
fn schedules_all<R>(scheduler: &Scheduler<Job<R>, R>, first: u32) -> bool
where
    R: Wait + Clone + Drop,
{
    for number in first..first.saturating_add(COUNT) {
        if !schedules(scheduler, number) {
            return false;
        }
    }
    true
}

fn schedules<R: Wait + Clone + Drop>(scheduler: &Scheduler<Job<R>, R>, number: u32) -> bool {
    match scheduler.schedule(Job::Yields(1, number)) {
        Ok(_) => true,
        Err(ScheduleError::OutOfMemory(back)) => {
            matches!(&back, Job::Yields(1, its) if *its == number)
                && scheduler.schedule(back).is_ok()
        }
        Err(ScheduleError::Destroyed(_)) => false,
    }
}

fn executor_of<R: Wait + Clone + Drop>(
    rt: &R,
    alloc: Global,
) -> Option<(Executor<Job<R>, R>, Scheduler<Job<R>, R>)> {
    match make_executor(rt, alloc) {
        Err(Error::OutOfMemory) => make_executor(rt, alloc).ok(),
        made => made.ok(),
    }
}

fn clone_of<R: Wait + Clone + Drop>(
    scheduler: &Scheduler<Job<R>, R>,
) -> Option<Scheduler<Job<R>, R>> {
    match scheduler.clone() {
        Ok(again) => Some(again),
        Err(_) => scheduler.clone().ok(),
    }
}

/// Gives the numbers below its end.
#[derive(Drop)]
struct Numbers {
    next: u32,
    end: u32,
}

impl<R: Wait + Clone + Drop> Stream<R> for Numbers {
    type Item = u32;

    fn poll_next(&mut self, _cx: &mut Context<'_, R>) -> Poll<Option<u32>> {
        if self.next >= self.end {
            return Poll::Ready(None);
        }
        let number = self.next;
        self.next = number.saturating_add(1);
        Poll::Ready(Some(number))
    }
}

/// Says each item, and at the end how many they were to be.
#[derive(Drop)]
struct Reader;

impl On<Option<u32>, Vec<u32>, ()> for Reader {
    fn on(&mut self, item: Option<u32>, said: &mut Vec<u32>) {
        let _failed = said.push(item.unwrap_or(COUNT));
    }
}

type Held<R> = Sources<Dispatcher<StreamSource<Numbers, R>, Reader>, Vec<u32>>;

// Whether all items of a stream and its end come, in order, to a loop that had two tries for each call.
fn reads_all<D, R>(rt: &R, alloc: Global) -> Option<bool>
where
    D: EventDispatcher<ScriptPoller, ScriptClock, R, Data = Vec<u32>>,
    Numbers: Stream<R, Item = u32>,
    D: Choice<StreamSource<Numbers, R>, Reader, Here>,
    R: Wait + Clone + Drop,
{
    let mut event_loop: ScriptLoop<D, R> = loop_of(rt, alloc)?;
    let numbers = Numbers {
        next: 0,
        end: COUNT,
    };
    let source = stream_of(rt, alloc, numbers)?;
    insert(&mut event_loop, D::hold(Dispatcher::new(source, Reader)))?;
    let mut said = room(alloc)?;
    let went = dispatches(rt, &mut event_loop, &mut said);
    Some(went && are_all(&said, 0..COUNT + 1))
}

fn stream_of<S: Stream<R>, R>(rt: &R, alloc: Global, stream: S) -> Option<StreamSource<S, R>>
where
    R: Wait + Clone + Drop,
{
    match StreamSource::new(rt, alloc, stream) {
        Ok(source) => Some(source),
        Err(refused) => {
            let back = given_back(refused)?;
            StreamSource::new(rt, alloc, back).ok()
        }
    }
}

// Whether a loop that runs for a future, or for a second one if there was no memory, gives what it gives.
pub fn gives_in_block_on<D, R>(rt: &R, alloc: Global) -> Option<bool>
where
    D: EventDispatcher<ScriptPoller, ScriptClock, R, Data = Vec<u32>>,
    R: Wait + Clone + Drop,
{
    let mut event_loop: ScriptLoop<D, R> = loop_of(rt, alloc)?;
    let mut said = Vec::new(alloc);
    let first = event_loop.block_on(rt, alloc, Job::Yields(1, 7), &mut said, |_said| {});
    let given = match first {
        Err(Error::OutOfMemory) => {
            event_loop.block_on(rt, alloc, Job::Yields(1, 7), &mut said, |_said| {})
        }
        given => given,
    };
    Some(given.ok()? == Some(7))
}

fn loop_of<D, R>(rt: &R, alloc: Global) -> Option<ScriptLoop<D, R>>
where
    D: EventDispatcher<ScriptPoller, ScriptClock, R, Data = Vec<u32>>,
    R: Wait + Clone + Drop,
{
    match ScriptLoop::with_script(rt, alloc) {
        Err(Error::OutOfMemory) => ScriptLoop::with_script(rt, alloc).ok(),
        made => made.ok(),
    }
}

// Puts a source into the loop: a refusal hands it back.
fn insert<D, R>(event_loop: &mut ScriptLoop<D, R>, held: D) -> Option<()>
where
    D: EventDispatcher<ScriptPoller, ScriptClock, R, Data = Vec<u32>>,
    R: Wait + Clone + Drop,
{
    if let Err(refused) = event_loop.handle().register_dispatcher(held) {
        let back = given_back(refused)?;
        event_loop.handle().register_dispatcher(back).ok()?;
    }
    Some(())
}

fn given_back<T: Drop>(refused: InsertError<T>) -> Option<T> {
    let InsertError { inserted, error } = refused;
    match error {
        Error::OutOfMemory => Some(inserted),
        _ => None,
    }
}

// Room for all that is said.
fn room(alloc: Global) -> Option<Vec<u32>> {
    match Vec::with_capacity(alloc, 100) {
        Ok(said) => Some(said),
        Err(_) => Vec::with_capacity(alloc, 100).ok(),
    }
}

// Whether two dispatches go well, each by one of two tries.
fn dispatches<D, R>(rt: &R, event_loop: &mut ScriptLoop<D, R>, said: &mut Vec<u32>) -> bool
where
    D: EventDispatcher<ScriptPoller, ScriptClock, R, Data = Vec<u32>>,
    R: Wait + Clone + Drop,
{
    dispatch(rt, event_loop, said).is_ok() && dispatch(rt, event_loop, said).is_ok()
}

fn dispatch<D, R>(rt: &R, event_loop: &mut ScriptLoop<D, R>, said: &mut Vec<u32>) -> LoopResult<()>
where
    D: EventDispatcher<ScriptPoller, ScriptClock, R, Data = Vec<u32>>,
    R: Wait + Clone + Drop,
{
    let timeout = Some(Duration::ZERO);
    let before = said.len();
    match event_loop.dispatch(rt, timeout, said) {
        Err(Error::OutOfMemory) if said.len() == before => event_loop.dispatch(rt, timeout, said),
        answer => answer,
    }
}
