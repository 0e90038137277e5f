//! Futures that are ready at a moment.
use super::desk::{Reader, are_waits, time};
use calloop::futures::{Context, Executor, Future, Poll, Scheduler, make_executor};
use calloop::{
    Choice, Clock, Dispatcher, Error, EventDispatcher, Here, Instant, Keep, OneOf,
    RegistrationToken, Requests, ScriptLoop, Sources, There, TimeoutFuture, TimeoutTimer,
};
use calloop_script::{ScriptClock, ScriptPoller};
use std::alloc::Global;
use std::sync::Wait;
use std::time::Duration;

/// Gives its number once its moment has come.
#[derive(Drop)]
struct Sleeper<C: Clock, R: Wait + Drop> {
    timeout: TimeoutFuture<C, R>,
    number: u32,
}

impl<C: Clock, R: Wait + Clone + Drop> Future<R> for Sleeper<C, R> {
    type Output = u32;

    fn poll(&mut self, cx: &mut Context<'_, R>) -> Poll<u32> {
        match self.timeout.poll(cx) {
            Poll::Ready(()) => Poll::Ready(self.number),
            Poll::Pending => Poll::Pending,
        }
    }
}

/// What a loop of such futures holds.
type Held<R> = Sources<
    OneOf<Dispatcher<Executor<Sleeper<ScriptClock, R>, R>, Reader>, TimeoutTimer<R>>,
    Vec<u32>,
>;

/// What a test does, or looks for. Times are in milliseconds.
#[derive(Clone, Copy)]
enum Act<'a> {
    /// A future that gives this number at this moment is scheduled.
    Until(u64, u32),
    /// One that gives it so much later.
    For(u64, u32),
    /// One whose moment can't be told.
    Never(u32),
    /// One is made, and dropped.
    Leave(u64),
    /// A loop that runs for a future of this moment ends with its number, and says nothing.
    Blocks(u64),
    /// No call of a handle names what is in the slot behind the executor's.
    Hides,
    /// A dispatch succeeds in which these numbers are said.
    Says(Option<u64>, &'a [u32]),
    /// The poller was asked for these waits since this was asked before.
    Asked(&'a [Option<u64>]),
}

/// A scripted loop with one executor.
#[derive(Drop)]
struct Bedroom<D, R>
where
    D: EventDispatcher<ScriptPoller, ScriptClock, R>,
    R: Wait + Drop,
{
    rt: R,
    alloc: Global,
    event_loop: ScriptLoop<D, R>,
    scheduler: Scheduler<Sleeper<ScriptClock, R>, R>,
    said: Vec<u32>,
}

impl<D, R> Bedroom<D, R>
where
    D: EventDispatcher<ScriptPoller, ScriptClock, R, Data = Vec<u32>, Idle = ()>,
    D: Choice<Executor<Sleeper<ScriptClock, R>, R>, Reader, Here>,
    D: Keep<TimeoutTimer<R>, ScriptPoller, ScriptClock, R, Vec<u32>, Requests<D>, There<Here>>,
    R: Wait + Clone + Drop,
{
    fn new(rt: &R, alloc: Global) -> Option<Bedroom<D, R>> {
        let mut event_loop: ScriptLoop<D, R> = ScriptLoop::with_script(rt, alloc).ok()?;
        event_loop.handle().poller_mut().keep_waits(8).ok()?;
        let (executor, scheduler) = make_executor(rt, alloc).ok()?;
        let held = D::hold(Dispatcher::new(executor, Reader));
        event_loop.handle().register_dispatcher(held).ok()?;
        Some(Bedroom {
            rt: rt.clone().ok()?,
            alloc,
            event_loop,
            scheduler,
            said: Vec::new(alloc),
        })
    }

    /// The place of the first act that isn't as it is wanted.
    fn play(&mut self, acts: &[Act<'_>]) -> Option<usize> {
        acts.iter().position(|act| self.does(*act).is_none())
    }

    fn does(&mut self, act: Act<'_>) -> Option<()> {
        match act {
            Act::Until(millis, number) => {
                let timeout = self.until(millis)?;
                self.schedule(timeout, number)
            }
            Act::For(millis, number) => {
                let timeout = self.lasts(Duration::from_millis(millis))?;
                self.schedule(timeout, number)
            }
            Act::Never(number) => {
                let timeout = self.lasts(Duration::MAX)?;
                self.schedule(timeout, number)
            }
            Act::Leave(millis) => self.until(millis).map(drop),
            Act::Blocks(millis) => self.blocks(millis),
            Act::Hides => self.hides(RegistrationToken::new(1, 0)).then_some(()),
            Act::Says(timeout, numbers) => {
                self.said.clear();
                let answer = self
                    .event_loop
                    .dispatch(&self.rt, time(timeout), &mut self.said);
                (answer.is_ok() && self.said.as_slice() == numbers).then_some(())
            }
            Act::Asked(waits) => self.expect_asked(waits),
        }
    }

    fn until(&mut self, millis: u64) -> Option<TimeoutFuture<ScriptClock, R>> {
        let deadline = Instant::from_millis(millis);
        TimeoutFuture::from_deadline(
            &mut self.event_loop.handle(),
            &self.rt,
            self.alloc,
            deadline,
        )
        .ok()
    }

    fn lasts(&mut self, duration: Duration) -> Option<TimeoutFuture<ScriptClock, R>> {
        TimeoutFuture::from_duration(
            &mut self.event_loop.handle(),
            &self.rt,
            self.alloc,
            duration,
        )
        .ok()
    }

    fn schedule(&self, timeout: TimeoutFuture<ScriptClock, R>, number: u32) -> Option<()> {
        self.scheduler
            .schedule(Sleeper { timeout, number })
            .ok()
            .map(drop)
    }

    fn blocks(&mut self, millis: u64) -> Option<()> {
        let timeout = self.until(millis)?;
        self.said.clear();
        let answer = self.event_loop.block_on(
            &self.rt,
            self.alloc,
            Sleeper { timeout, number: 1 },
            &mut self.said,
            |_said| {},
        );
        (answer.ok()? == Some(1) && self.said.is_empty()).then_some(())
    }

    fn hides(&mut self, token: RegistrationToken) -> bool {
        let mut handle = self.event_loop.handle();
        matches!(handle.enable(&token), Err(Error::InvalidToken))
            && matches!(handle.update(&token), Err(Error::InvalidToken))
            && matches!(handle.disable(&token), Err(Error::InvalidToken))
            && handle.remove(token).is_none()
    }

    fn expect_asked(&mut self, waits: &[Option<u64>]) -> Option<()> {
        let mut handle = self.event_loop.handle();
        let poller = handle.poller_mut();
        let same = are_waits(poller.waits(), waits);
        poller.keep_waits(8).ok()?;
        same.then_some(())
    }
}

// Plays at a new loop: the place of the first act that isn't as it is wanted, or one behind the last if no loop can be made. This alone knows of
// which types the loop is.
fn plays<R: Wait + Clone + Drop>(rt: &R, alloc: Global, acts: &[Act<'_>]) -> Option<usize> {
    plays_over::<Held<R>, R>(rt, alloc, acts)
}

fn plays_over<D, R>(rt: &R, alloc: Global, acts: &[Act<'_>]) -> Option<usize>
where
    D: EventDispatcher<ScriptPoller, ScriptClock, R, Data = Vec<u32>, Idle = ()>,
    D: Choice<Executor<Sleeper<ScriptClock, R>, R>, Reader, Here>,
    D: Keep<TimeoutTimer<R>, ScriptPoller, ScriptClock, R, Vec<u32>, Requests<D>, There<Here>>,
    R: Wait + Clone + Drop,
{
    let made: Option<Bedroom<D, R>> = Bedroom::new(rt, alloc);
    match made {
        Some(mut bedroom) => bedroom.play(acts),
        None => Some(acts.len()),
    }
}

// What a test does at a new loop, and what is to come of it.
const CASES: &[(&str, &[Act<'static>])] = &[
    (
        "a_future_is_ready_in_the_dispatch_behind_its_moment",
        &[
            Act::Until(5, 7),
            Act::Says(Some(0), &[]),
            Act::Says(Some(10), &[]),
            Act::Says(Some(0), &[7]),
            Act::Asked(&[Some(0), Some(5), Some(0)]),
        ],
    ),
    (
        "no_call_of_a_handle_names_the_slot_of_a_timeout",
        &[
            Act::Until(5, 7),
            Act::Hides,
            Act::Says(Some(0), &[]),
            Act::Hides,
            Act::Says(Some(10), &[]),
            Act::Says(Some(0), &[7]),
        ],
    ),
    (
        "a_moment_that_has_come_is_ready_at_the_first_poll",
        &[Act::For(0, 7), Act::Says(Some(10), &[7])],
    ),
    (
        "two_futures_are_ready_in_the_order_of_their_moments",
        &[
            Act::Until(9, 9),
            Act::For(4, 4),
            Act::Says(Some(0), &[]),
            Act::Says(None, &[]),
            Act::Says(None, &[4]),
            Act::Says(None, &[]),
            Act::Says(None, &[9]),
            Act::Asked(&[Some(0), Some(4), Some(0), Some(5), Some(0)]),
        ],
    ),
    (
        "a_moment_that_cannot_be_told_never_comes",
        &[
            Act::Never(7),
            Act::Says(Some(0), &[]),
            Act::Says(Some(1_000), &[]),
            Act::Asked(&[Some(0), Some(1_000)]),
        ],
    ),
    (
        "the_timer_of_a_dropped_future_leaves_the_loop_at_its_moment",
        &[
            Act::Leave(5),
            Act::Says(Some(10), &[]),
            Act::Says(Some(10), &[]),
            Act::Asked(&[Some(5), Some(10)]),
        ],
    ),
    (
        "a_loop_runs_for_a_future_until_its_moment",
        &[Act::Blocks(5), Act::Asked(&[Some(5)])],
    ),
];

#[test]
fn each_case_of_timeouts_goes_as_it_is_to(rt: HostRuntime) {
    for (name, acts) in CASES {
        assert_eq!(rt; plays(&rt, rt.alloc(), acts), None, "{name}");
    }
}
