//! A loop of executors over a scripted poller, and what a test does at it.
use super::job::{Faller, Job, Outbox};
use super::{blocked, memory, threads};
use calloop::futures::{Executor, ExecutorDestroyed, ScheduleError, Scheduler, make_executor};
use calloop::loop_logic::EventLoop;
use calloop::{Choice, Dispatcher, Error, EventDispatcher, Here, On, RegistrationToken, Sources};
use calloop_script::{ScriptClock, ScriptPoller};
use std::alloc::Global;
use std::mem;
use std::ops::Range;
use std::sync::atomic::{AtomicU32, Ordering};
use std::sync::{Arc, Wait};
use std::thread::Threads;
use std::time::Duration;

/// Says each result.
#[derive(Drop)]
pub struct Reader;

impl On<u32, Vec<u32>, ()> for Reader {
    fn on(&mut self, number: u32, said: &mut Vec<u32>) {
        let _failed = said.push(number);
    }
}

/// What a test does, or looks for.
#[derive(Clone, Copy)]
pub enum Act<'a> {
    /// An executor is made, and a scheduler.
    Make,
    /// It comes into the loop.
    Insert,
    /// The last one of the schedulers schedules futures that give these numbers at once.
    Schedule(&'a [u32]),
    /// All numbers from the first up to the second.
    ScheduleAll(u32, u32),
    /// A future that wakes itself, this many times, and gives this at its second poll.
    Yield(u32, u32),
    /// A future that hands its waker out at its first poll, and gives this at its second.
    Wait(u32),
    /// From now on `Wait`, `Wake` and `Polled` are of another such future: of the one before the next time.
    Other,
    /// One that gives nothing, and counts its drop.
    Fall,
    /// So many futures that count their drop were dropped.
    Fallen(u32),
    /// The waker that was handed out last wakes, this many times.
    Wake(u32),
    /// The future that hands its waker out was polled this often.
    Polled(u32),
    /// A future isn't scheduled, since the executor is gone.
    Refused,
    /// The last scheduler is cloned.
    Clone,
    /// It goes.
    Drop,
    /// The executor goes, which isn't in the loop.
    Leave,
    /// It is taken out of the loop, and goes.
    Remove,
    /// A dispatch succeeds in which these numbers are said.
    Says(Option<u64>, &'a [u32]),
    /// One in which all numbers from the first up to the second are said.
    SaysAll(Option<u64>, u32, u32),
    /// The poller was asked for these waits, in milliseconds, since this was asked before.
    Asked(&'a [Option<u64>]),
    Disable,
    Enable,
    /// The executor's token names it, or nothing.
    Names(bool),
}

/// A loop over any sources that executors can be, with one executor and its schedulers.
#[derive(Drop)]
pub struct Desk<D, R>
where
    D: EventDispatcher<ScriptPoller, ScriptClock, R>,
    R: Wait + Drop,
{
    rt: R,
    alloc: Global,
    event_loop: EventLoop<D, ScriptPoller, ScriptClock, R>,
    said: Vec<u32>,
    outbox: Arc<Outbox<R>, Global>,
    other: Arc<Outbox<R>, Global>,
    fallen: Arc<AtomicU32, Global>,
    schedulers: Vec<Scheduler<Job<R>, R>>,
    executor: Option<Executor<Job<R>, R>>,
    token: Option<RegistrationToken>,
}

impl<D, R> Desk<D, R>
where
    D: EventDispatcher<ScriptPoller, ScriptClock, R, Data = Vec<u32>>,
    D: Choice<Executor<Job<R>, R>, Reader, Here>,
    R: Wait + Clone + Drop,
{
    /// An empty loop, whose poller keeps eight waits.
    pub fn new(rt: &R, alloc: Global) -> Option<Desk<D, R>> {
        let mut poller = ScriptPoller::new(alloc).ok()?;
        poller.keep_waits(8).ok()?;
        let clock = poller.clock().ok()?;
        let event_loop = EventLoop::try_new(rt, alloc, poller, clock).ok()?;
        let of_outbox = rt.clone().ok()?;
        let of_other = rt.clone().ok()?;
        Some(Desk {
            rt: rt.clone().ok()?,
            alloc,
            event_loop,
            said: Vec::new(alloc),
            outbox: Arc::new(alloc, Outbox::new(of_outbox)).ok()?,
            other: Arc::new(alloc, Outbox::new(of_other)).ok()?,
            fallen: Arc::new(alloc, AtomicU32::new(0)).ok()?,
            schedulers: Vec::new(alloc),
            executor: None,
            token: None,
        })
    }

    /// The place of the first act that isn't as it is wanted.
    pub fn play(&mut self, acts: &[Act<'_>]) -> Option<usize> {
        for (place, act) in acts.iter().enumerate() {
            if !self.does(*act) {
                return Some(place);
            }
        }
        None
    }

    fn does(&mut self, act: Act<'_>) -> bool {
        match act {
            Act::Make => self.make().is_some(),
            Act::Insert => self.insert().is_some(),
            Act::Remove => self.remove().is_some(),
            Act::Leave => self.executor.take().is_some(),
            Act::Clone => self.clone_scheduler().is_some(),
            Act::Drop => self.schedulers.pop().is_some(),
            Act::Says(timeout, numbers) => {
                self.dispatch(timeout) && self.said.as_slice() == numbers
            }
            Act::SaysAll(timeout, first, end) => {
                self.dispatch(timeout) && are_all(&self.said, first..end)
            }
            Act::Asked(waits) => self.was_asked(waits),
            Act::Disable => self.disable() == Some(true),
            Act::Enable => self.enable() == Some(true),
            Act::Names(names) => self.disable() == Some(names),
            _ => self.does_to_futures(act),
        }
    }

    fn does_to_futures(&mut self, act: Act<'_>) -> bool {
        match act {
            Act::Schedule(numbers) => {
                numbers
                    .iter()
                    .all(|number| self.schedules(Job::Gives(*number)))
            }
            Act::ScheduleAll(first, end) => {
                (first..end).all(|number| self.schedules(Job::Gives(number)))
            }
            Act::Yield(times, number) => self.schedules(Job::Yields(times, number)),
            Act::Wait(number) => self.waits(number).is_some(),
            Act::Other => {
                mem::swap(&mut self.outbox, &mut self.other);
                true
            }
            Act::Fall => self.falls().is_some(),
            Act::Fallen(count) => self.fallen.load(Ordering::SeqCst) == count,
            Act::Wake(times) => self.outbox.wakes(times),
            Act::Polled(count) => self.outbox.polls() == count,
            Act::Refused => self.is_destroyed(),
            _ => false,
        }
    }

    fn make(&mut self) -> Option<()> {
        let (executor, scheduler) = make_executor(&self.rt, self.alloc).ok()?;
        self.executor = Some(executor);
        self.schedulers.push(scheduler).ok()
    }

    /// The executor comes into the loop.
    pub fn insert(&mut self) -> Option<()> {
        let executor = self.executor.take()?;
        let held = D::hold(Dispatcher::new(executor, Reader));
        let token = self.event_loop.handle().register_dispatcher(held).ok()?;
        self.token = Some(token);
        Some(())
    }

    fn remove(&mut self) -> Option<()> {
        let token = self.token?;
        let removed = self.event_loop.handle().remove(token)?;
        drop(removed);
        Some(())
    }

    fn clone_scheduler(&mut self) -> Option<()> {
        let again = self.schedulers.last()?.clone().ok()?;
        self.schedulers.push(again).ok()
    }

    // Whether the future is scheduled.
    fn schedules(&self, job: Job<R>) -> bool {
        match self.schedulers.last() {
            Some(scheduler) => scheduler.schedule(job).is_ok(),
            None => false,
        }
    }

    /// Schedules a future that hands its waker out.
    pub fn waits(&self, number: u32) -> Option<()> {
        let outbox = Arc::try_clone(&self.outbox).ok()?;
        self.schedules(Job::Waits(outbox, number)).then_some(())
    }

    fn falls(&self) -> Option<()> {
        let fallen = Arc::try_clone(&self.fallen).ok()?;
        self.schedules(Job::Falls(Faller { fallen })).then_some(())
    }

    fn is_destroyed(&self) -> bool {
        match self.schedulers.last() {
            Some(scheduler) => matches!(
                scheduler.schedule(Job::Gives(1)),
                Err(ScheduleError::Destroyed(ExecutorDestroyed))
            ),
            None => false,
        }
    }

    /// Where its future hands its waker out.
    pub fn outbox(&self) -> &Outbox<R> {
        &self.outbox
    }

    /// Whether a dispatch succeeds. What is said stands in `said`.
    pub fn dispatch(&mut self, timeout: Option<u64>) -> bool {
        self.said.clear();
        let answer = self
            .event_loop
            .dispatch(&self.rt, time(timeout), &mut self.said);
        answer.is_ok()
    }

    /// What was said in the last dispatch.
    pub fn said(&self) -> &[u32] {
        &self.said
    }

    fn was_asked(&mut self, waits: &[Option<u64>]) -> bool {
        let mut handle = self.event_loop.handle();
        let poller = handle.poller_mut();
        let same = are_waits(poller.waits(), waits);
        poller.keep_waits(8).is_ok() && same
    }

    // Whether the token names the executor, if nothing else goes wrong.
    fn disable(&mut self) -> Option<bool> {
        let token = self.token?;
        is_named(&self.event_loop.handle().disable(&token))
    }

    fn enable(&mut self) -> Option<bool> {
        let token = self.token?;
        is_named(&self.event_loop.handle().enable(&token))
    }
}

/// What a loop of executors holds.
type Held<R> = Sources<Dispatcher<Executor<Job<R>, R>, Reader>, Vec<u32>>;

/// Plays at a new desk: the place of the first act that isn't as it is wanted, or one behind the last if no desk can be made. This and `goes` alone
/// know of which types it is, and call nothing else: a call on a loop whose types are written out costs the prover as much as a whole test.
pub fn plays<R: Wait + Clone + Drop>(rt: &R, alloc: Global, acts: &[Act<'_>]) -> Option<usize> {
    plays_over::<Held<R>, R>(rt, alloc, acts)
}

fn plays_over<D, R>(rt: &R, alloc: Global, acts: &[Act<'_>]) -> Option<usize>
where
    D: EventDispatcher<ScriptPoller, ScriptClock, R, Data = Vec<u32>>,
    D: Choice<Executor<Job<R>, R>, Reader, Here>,
    R: Wait + Clone + Drop,
{
    let made: Option<Desk<D, R>> = Desk::new(rt, alloc);
    match made {
        Some(mut desk) => desk.play(acts),
        None => Some(acts.len()),
    }
}

/// What a test does with such a loop, beside acts.
#[derive(Clone, Copy)]
pub enum Trial {
    /// It runs for a future that is ready at once, and for one that wakes itself, which is stopped at a call or isn't.
    RunsForReady,
    RunsForYielding,
    RunsUntilStopped,
    /// It runs for one that nobody wakes.
    RunsForWaiting,
    /// It runs for one that is woken in the call that stops it.
    RunIsStoppedBehindAWake,
    /// A thread wakes one.
    Thread,
    /// Memory is wanting for futures, and for one that it runs for.
    FuturesWithoutMemory,
    RunWithoutMemory,
}

/// Whether it goes as it is to. None if memory is short.
pub fn goes<R>(rt: &R, alloc: Global, trial: Trial) -> Option<bool>
where
    R: Threads + Wait + Clone + Drop + Send + Sync + 'static,
{
    tries::<Held<R>, R>(rt, alloc, trial)
}

fn tries<D, R>(rt: &R, alloc: Global, trial: Trial) -> Option<bool>
where
    D: EventDispatcher<ScriptPoller, ScriptClock, R, Data = Vec<u32>>,
    D: Choice<Executor<Job<R>, R>, Reader, Here>,
    R: Threads + Wait + Clone + Drop + Send + Sync + 'static,
{
    match trial {
        Trial::RunsForReady => blocked::runs_for_ready::<D, R>(rt, alloc),
        Trial::RunsForYielding => blocked::runs_for_yielding::<D, R>(rt, alloc),
        Trial::RunsUntilStopped => blocked::runs_until_stopped::<D, R>(rt, alloc),
        Trial::RunsForWaiting => blocked::polls_once::<D, R>(rt, alloc),
        Trial::RunIsStoppedBehindAWake => blocked::is_stopped_behind_a_wake::<D, R>(rt, alloc),
        Trial::Thread => threads::is_woken_by_a_thread::<D, R>(rt, alloc),
        Trial::FuturesWithoutMemory => memory::runs_all::<D, R>(rt, alloc),
        Trial::RunWithoutMemory => memory::gives_in_block_on::<D, R>(rt, alloc),
    }
}

/// Whether these are all numbers of the range, in order.
pub fn are_all(numbers: &[u32], range: Range<u32>) -> bool {
    let mut wanted = range;
    for number in numbers {
        if wanted.next() != Some(*number) {
            return false;
        }
    }
    wanted.next().is_none()
}

fn is_named(answer: &calloop::Result<()>) -> Option<bool> {
    match answer {
        Ok(()) => Some(true),
        Err(Error::InvalidToken) => Some(false),
        Err(_) => None,
    }
}

/// A time in milliseconds.
pub fn time(millis: Option<u64>) -> Option<Duration> {
    match millis {
        Some(millis) => Some(Duration::from_millis(millis)),
        None => None,
    }
}

/// Whether the noted waits are these, in milliseconds.
pub fn are_waits(noted: &[Option<Duration>], waits: &[Option<u64>]) -> bool {
    noted.len() == waits.len()
        && noted
            .iter()
            .zip(waits)
            .all(|(one, other)| *one == time(*other))
}
