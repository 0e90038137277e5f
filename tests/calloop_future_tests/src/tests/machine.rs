//! Futures in loops over the machine's poller, which a second thread wakes while the loop runs.
use super::desk::Reader;
use super::job::Outbox;
use calloop::futures::{Context, Executor, Future, Poll, Waker, make_executor};
use calloop::{
    Choice, Clock, Dispatcher, EventDispatcher, Here, LoopSignal, MioPoller, Sources, SystemClock,
    SystemLoop,
};
use std::alloc::Global;
use std::net::Net;
use std::sync::atomic::{AtomicBool, AtomicU32, Ordering};
use std::sync::{Arc, Wait};
use std::thread::{Threads, sleep, spawn, yield_now};
use std::time::{Clock as MachineClock, Duration};

// How often a thread wakes.
const WAKES: u32 = 1_000;

// In seconds: how long a dispatch may wait, and after which time a test is lost.
const LONG: u64 = 10;

#[test]
fn the_last_of_a_thousand_wakes_is_seen(rt: HostRuntime) {
    assert_eq!(rt;
        goes(&rt, rt.alloc(), Trial::Dispatches(Pace::AtOnce)),
        Some(true)
    );
}

#[test]
fn each_of_a_thousand_wakes_is_seen(rt: HostRuntime) {
    assert_eq!(rt;
        goes(&rt, rt.alloc(), Trial::Dispatches(Pace::InStep)),
        Some(true)
    );
}

#[test]
fn a_loop_that_runs_for_a_future_sees_the_last_wake(rt: HostRuntime) {
    assert_eq!(rt; goes(&rt, rt.alloc(), Trial::Runs), Some(true));
}

#[test]
fn a_loop_that_runs_for_a_future_sees_each_wake(rt: HostRuntime) {
    assert_eq!(rt; goes(&rt, rt.alloc(), Trial::RunsInStep), Some(true));
}

/// How a loop comes to see the wakes of a thread.
#[derive(Clone, Copy)]
enum Trial {
    /// It dispatches.
    Dispatches(Pace),
    /// It runs for the future, and the thread wakes it again at once, or once it was polled.
    Runs,
    RunsInStep,
}

// Whether the wakes are seen. None if memory is short. This alone knows of which types the loop is.
fn goes<R>(rt: &R, alloc: Global, trial: Trial) -> Option<bool>
where
    R: Net + MachineClock + Threads + Wait + Clone + Drop + Send + Sync + 'static,
{
    tries::<Held<R>, R>(rt, alloc, trial)
}

fn tries<D, R>(rt: &R, alloc: Global, trial: Trial) -> Option<bool>
where
    D: EventDispatcher<MioPoller<SystemClock<R>>, SystemClock<R>, R, Data = Vec<u32>>,
    D: Choice<Executor<Counts<R>, R>, Reader, Here>,
    R: Net + MachineClock + Threads + Wait + Clone + Drop + Send + Sync + 'static,
{
    match trial {
        Trial::Dispatches(pace) => is_woken::<D, R>(rt, alloc, pace),
        Trial::Runs => Some(gives_in_block_on::<D, R>(rt, alloc)? == Some(WAKES)),
        Trial::RunsInStep => sees_each_in_block_on::<D, R>(rt, alloc),
    }
}

/// When a thread wakes once more.
#[derive(Clone, Copy, PartialEq, Eq)]
enum Pace {
    AtOnce,
    /// Once the future was polled after the wake before.
    InStep,
}

/// What a future and the thread that wakes it share.
#[derive(Drop)]
struct Tally<R: Wait + Drop> {
    outbox: Outbox<R>,
    // How many wakes were made or are made next.
    announced: AtomicU32,
    // What the future's last poll found of these.
    seen: AtomicU32,
    // The loop doesn't run any more.
    over: AtomicBool,
}

impl<R: Wait + Clone + Drop> Tally<R> {
    fn new(rt: &R, alloc: Global) -> Option<Arc<Tally<R>, Global>> {
        let tally = Tally {
            outbox: Outbox::new(rt.clone().ok()?),
            announced: AtomicU32::new(0),
            seen: AtomicU32::new(0),
            over: AtomicBool::new(false),
        };
        Arc::new(alloc, tally).ok()
    }
}

impl<R: Wait + Drop> Tally<R> {
    // Wakes as often as it is to: whether the loop ran so long.
    fn wakes_all(&self, rt: &R, waker: &Waker<R>, pace: Pace) -> bool {
        for number in 1..=WAKES {
            self.announced.store(number, Ordering::SeqCst);
            waker.wake();
            if pace == Pace::InStep && !self.is_seen(rt, number) {
                return false;
            }
        }
        true
    }

    // Wakes once more: whether the future is polled then, in the time that a test has.
    fn wakes_one(&self, rt: &R, waker: &Waker<R>, number: u32) -> bool
    where
        R: MachineClock,
    {
        self.announced.store(number, Ordering::SeqCst);
        waker.wake();
        for look in 0..LONG * 1_000 {
            for _ in 0..1_000u32 {
                if self.seen.load(Ordering::SeqCst) == number {
                    return true;
                }
                yield_now();
            }
            if look > 0 {
                sleep(rt, Duration::from_millis(1));
            }
        }
        false
    }

    // Waits until the future has found this many wakes: whether it has before the loop ends.
    fn is_seen(&self, rt: &R, number: u32) -> bool {
        for _ in rt.forever() {
            if self.seen.load(Ordering::SeqCst) == number {
                return true;
            }
            if self.over.load(Ordering::SeqCst) {
                return false;
            }
            yield_now();
        }
        false
    }
}

/// Hands its waker out, and gives the count of wakes once all are announced.
#[derive(Drop)]
struct Counts<R: Wait + Drop> {
    tally: Arc<Tally<R>, Global>,
}

impl<R: Wait + Clone + Drop> Future<R> for Counts<R> {
    type Output = u32;

    fn poll(&mut self, cx: &mut Context<'_, R>) -> Poll<u32> {
        let announced = self.tally.announced.load(Ordering::SeqCst);
        if announced == 0 {
            self.tally.outbox.hand_out(cx.waker().clone().ok());
        }
        self.tally.seen.store(announced, Ordering::SeqCst);
        if announced == WAKES {
            return Poll::Ready(announced);
        }
        Poll::Pending
    }
}

type Held<R> = Sources<Dispatcher<Executor<Counts<R>, R>, Reader>, Vec<u32>>;

// Whether a future that a thread wakes beside the loop gives its number, before a wait has gone on to its end.
fn is_woken<D, R>(rt: &R, alloc: Global, pace: Pace) -> Option<bool>
where
    D: EventDispatcher<MioPoller<SystemClock<R>>, SystemClock<R>, R, Data = Vec<u32>>,
    D: Choice<Executor<Counts<R>, R>, Reader, Here>,
    R: Net + MachineClock + Threads + Wait + Clone + Drop + Send + Sync + 'static,
{
    let mut event_loop: SystemLoop<D, R> = SystemLoop::system(rt, alloc).ok()?;
    let tally = Tally::new(rt, alloc)?;
    let (executor, scheduler) = make_executor(rt, alloc).ok()?;
    let held = D::hold(Dispatcher::new(executor, Reader));
    event_loop.handle().register_dispatcher(held).ok()?;
    let of_future = Arc::try_clone(&tally).ok()?;
    scheduler.schedule(Counts { tally: of_future }).ok()?;
    let mut said = Vec::new(alloc);
    event_loop
        .dispatch(rt, Some(Duration::ZERO), &mut said)
        .ok()?;
    let waker = tally.outbox.take()?;
    let of_thread = Arc::try_clone(&tally).ok()?;
    let own = rt.clone().ok()?;
    let child = spawn(rt, move || of_thread.wakes_all(&own, &waker, pace)).ok()?;
    let went = dispatches(rt, &mut event_loop, &mut said);
    tally.over.store(true, Ordering::SeqCst);
    Some(child.join(rt) && went && said.as_slice() == [WAKES].as_slice())
}

// Dispatches until something is said, at most 10,000 times: whether each went well, and none waited to its end.
fn dispatches<D, R>(rt: &R, event_loop: &mut SystemLoop<D, R>, said: &mut Vec<u32>) -> bool
where
    D: EventDispatcher<MioPoller<SystemClock<R>>, SystemClock<R>, R, Data = Vec<u32>>,
    R: Net + MachineClock + Wait + Clone + Drop,
{
    let timeout = Some(Duration::from_secs(LONG));
    for _ in 0..10_000u32 {
        if event_loop.dispatch(rt, timeout, said).is_err() || !is_early(event_loop.clock()) {
            return false;
        }
        if !said.is_empty() {
            return true;
        }
    }
    false
}

// What a loop that runs for a future gives, which a thread wakes. None if the thread had to stop the loop.
fn gives_in_block_on<D, R>(rt: &R, alloc: Global) -> Option<Option<u32>>
where
    D: EventDispatcher<MioPoller<SystemClock<R>>, SystemClock<R>, R, Data = Vec<u32>>,
    R: Net + MachineClock + Threads + Wait + Clone + Drop + Send + Sync + 'static,
{
    let mut event_loop: SystemLoop<D, R> = SystemLoop::system(rt, alloc).ok()?;
    let signal = event_loop.get_signal().ok()?;
    let tally = Tally::new(rt, alloc)?;
    let of_thread = Arc::try_clone(&tally).ok()?;
    let own = rt.clone().ok()?;
    let child = spawn(rt, move || wakes_or_stops(&own, &of_thread, &signal)).ok()?;
    let mut said = Vec::new(alloc);
    let answer = event_loop.block_on(rt, alloc, Counts { tally }, &mut said, |_said| {});
    child.join(rt);
    answer.ok()
}

// Whether a loop that runs for a future polls it after each wake of a thread, which wakes it again only then.
fn sees_each_in_block_on<D, R>(rt: &R, alloc: Global) -> Option<bool>
where
    D: EventDispatcher<MioPoller<SystemClock<R>>, SystemClock<R>, R, Data = Vec<u32>>,
    R: Net + MachineClock + Threads + Wait + Clone + Drop + Send + Sync + 'static,
{
    let mut event_loop: SystemLoop<D, R> = SystemLoop::system(rt, alloc).ok()?;
    let signal = event_loop.get_signal().ok()?;
    let tally = Tally::new(rt, alloc)?;
    let of_thread = Arc::try_clone(&tally).ok()?;
    let own = rt.clone().ok()?;
    let child = spawn(rt, move || wakes_in_step(&own, &of_thread, &signal)).ok()?;
    let mut said = Vec::new(alloc);
    let answer = event_loop.block_on(rt, alloc, Counts { tally }, &mut said, |_said| {});
    let went = child.join(rt);
    Some(went && answer.ok()? == Some(WAKES))
}

// Wakes the future that a loop runs for, each time once it was polled after the wake before. The loop is stopped when it isn't.
fn wakes_in_step<R>(rt: &R, tally: &Tally<R>, signal: &LoopSignal) -> bool
where
    R: MachineClock + Wait + Drop,
{
    let went = match handed_out(rt, tally) {
        Some(waker) => (1..=WAKES).all(|number| tally.wakes_one(rt, &waker, number)),
        None => false,
    };
    if !went {
        signal.stop();
        signal.wakeup();
    }
    went
}

// Wakes the future that a loop runs for, once that has handed its waker out. The loop is stopped when the last wake isn't seen.
fn wakes_or_stops<R>(rt: &R, tally: &Tally<R>, signal: &LoopSignal)
where
    R: MachineClock + Wait + Drop,
{
    if let Some(waker) = handed_out(rt, tally) {
        tally.wakes_all(rt, &waker, Pace::AtOnce);
    }
    for _ in 0..LONG * 1_000 {
        if tally.seen.load(Ordering::SeqCst) == WAKES {
            return;
        }
        sleep(rt, Duration::from_millis(1));
    }
    signal.stop();
    signal.wakeup();
}

// The waker that the future hands out, in the time that a test has.
fn handed_out<R: MachineClock + Wait + Drop>(rt: &R, tally: &Tally<R>) -> Option<Waker<R>> {
    for _ in 0..LONG * 1_000 {
        let waker = tally.outbox.take();
        if waker.is_some() {
            return waker;
        }
        sleep(rt, Duration::from_millis(1));
    }
    None
}

// Whether the loop is younger than a wait may be long.
fn is_early<C: Clock>(clock: &C) -> bool {
    clock.now().nanos < LONG * 1_000_000_000
}
