//! Sockets as futures when memory is short: what was refused goes through at the second try.
//!
//! The kit's unproved run has one allocation refused: `rt try --test --fail-alloc N`.
use calloop::futures::{Context, Executor, Future, Poll, ScheduleError, Scheduler, make_executor};
use calloop::{
    Adapter, Async, Choice, Dispatcher, Error, EventDispatcher, Here, InsertError, Instant,
    LoopKeep, On, OneOf, Readiness, RegistrationToken, ScriptLoop, Sources, There, TokenFactory,
};
use calloop_script::{ScriptAnswer, ScriptClock, ScriptEnd, ScriptEvents, ScriptIo, ScriptPoller};
use std::alloc::Global;
use std::sync::Wait;
use std::time::Duration;

mod marks;

#[test]
fn want_of_memory_loses_no_wait_and_no_socket(rt: HostRuntime) {
    let number = comes_back::<Held<HostRuntime>, HostRuntime>(&rt, rt.alloc());
    assert_eq!(rt; number, Some(1));
}

/// Waits until the socket can be read, and gives its adapter back.
#[derive(Drop)]
struct Waits<R: Wait + Drop> {
    io: Option<Async<ScriptIo, R>>,
}

impl<R: Wait + Clone + Drop> Future<R> for Waits<R> {
    type Output = Option<Async<ScriptIo, R>>;

    fn poll(&mut self, cx: &mut Context<'_, R>) -> Poll<Option<Async<ScriptIo, R>>> {
        let Some(io) = &mut self.io else {
            return Poll::Ready(None);
        };
        let answer = match io.readable().poll(cx) {
            Poll::Ready(Err(_)) => io.readable().poll(cx),
            answer => answer,
        };
        match answer {
            Poll::Ready(Ok(())) => Poll::Ready(self.io.take()),
            Poll::Ready(Err(_)) => Poll::Ready(None),
            Poll::Pending => Poll::Pending,
        }
    }
}

type Back<R> = Option<Async<ScriptIo, R>>;

/// Keeps the adapter.
#[derive(Drop)]
struct Keeps;

impl<R: Wait + Drop> On<Back<R>, Back<R>, ()> for Keeps {
    fn on(&mut self, given: Back<R>, back: &mut Back<R>) {
        *back = given;
    }
}

type Held<R> = Sources<
    OneOf<Adapter<ScriptIo, R>, Dispatcher<Executor<Waits<R>, R>, Keeps>>,
    Back<R>,
>;

// The number of the socket that comes back after a wait for it, in a loop that had two tries for each call.
fn comes_back<D, R>(rt: &R, alloc: Global) -> Option<i32>
where
    D: EventDispatcher<ScriptPoller, ScriptClock, R, Data = Back<R>>,
    D: Choice<Executor<Waits<R>, R>, Keeps, There<Here>>,
    D: LoopKeep<Adapter<ScriptIo, R>, ScriptPoller, ScriptClock, R, Here>,
    R: Wait + Clone + Drop,
{
    let mut event_loop: ScriptLoop<D, R> = loop_of(rt, alloc)?;
    let io = match event_loop
        .handle()
        .adapt_io(rt, alloc, ScriptIo { number: 1 })
    {
        Ok(io) => io,
        Err(refused) => {
            let socket = given_back(refused)?;
            event_loop.handle().adapt_io(rt, alloc, socket).ok()?
        }
    };
    let (executor, scheduler) = executor_of(rt, alloc)?;
    insert(&mut event_loop, D::hold(Dispatcher::new(executor, Keeps)))?;
    schedule(&scheduler, Waits { io: Some(io) })?;
    let mut back = None;
    dispatch(rt, &mut event_loop, &mut back)?;
    answer(&mut event_loop, alloc)?;
    dispatch(rt, &mut event_loop, &mut back)?;
    dispatch(rt, &mut event_loop, &mut back)?;
    let socket = event_loop.handle().into_inner(back.take()?).ok()?;
    Some(socket.number)
}

fn loop_of<D, R>(rt: &R, alloc: Global) -> Option<ScriptLoop<D, R>>
where
    D: EventDispatcher<ScriptPoller, ScriptClock, R, Data = Back<R>>,
    R: Wait + Clone + Drop,
{
    match ScriptLoop::with_script(rt, alloc) {
        Err(Error::OutOfMemory) => ScriptLoop::with_script(rt, alloc).ok(),
        made => made.ok(),
    }
}

fn given_back<T: Drop>(refused: InsertError<T>) -> Option<T> {
    let InsertError { inserted, error } = refused;
    match error {
        Error::OutOfMemory => Some(inserted),
        _ => None,
    }
}

type Executing<R> = (Executor<Waits<R>, R>, Scheduler<Waits<R>, R>);

fn executor_of<R: Wait + Clone + Drop>(rt: &R, alloc: Global) -> Option<Executing<R>> {
    match make_executor(rt, alloc) {
        Err(Error::OutOfMemory) => make_executor(rt, alloc).ok(),
        made => made.ok(),
    }
}

fn insert<D, R>(event_loop: &mut ScriptLoop<D, R>, held: D) -> Option<()>
where
    D: EventDispatcher<ScriptPoller, ScriptClock, R, Data = Back<R>>,
    R: Wait + Clone + Drop,
{
    if let Err(refused) = event_loop.handle().register_dispatcher(held) {
        let back = given_back(refused)?;
        event_loop.handle().register_dispatcher(back).ok()?;
    }
    Some(())
}

fn schedule<R: Wait + Clone + Drop>(
    scheduler: &Scheduler<Waits<R>, R>,
    future: Waits<R>,
) -> Option<()> {
    match scheduler.schedule(future) {
        Ok(_receipt) => Some(()),
        Err(ScheduleError::OutOfMemory(back)) => {
            scheduler.schedule(back).ok().map(|_receipt| ())
        }
        Err(_) => None,
    }
}

// The next wait finds the socket readable, under its first registration, or under its second one if the first was refused.
fn answer<D, R>(event_loop: &mut ScriptLoop<D, R>, alloc: Global) -> Option<()>
where
    D: EventDispatcher<ScriptPoller, ScriptClock, R, Data = Back<R>>,
    R: Wait + Clone + Drop,
{
    for _ in 0..2u32 {
        let Some(events) = both_events(alloc) else {
            continue;
        };
        let answer = ScriptAnswer {
            moment: Instant::from_millis(1),
            end: ScriptEnd::Events(events),
        };
        if event_loop.handle().poller_mut().script(answer).is_ok() {
            return Some(());
        }
    }
    None
}

fn both_events(alloc: Global) -> Option<ScriptEvents> {
    let found = Readiness {
        readable: true,
        writable: false,
        error: false,
    };
    let mut events = ScriptEvents::new(alloc);
    for named in [RegistrationToken::new(0, 0), RegistrationToken::new(0, 1)] {
        let token = TokenFactory::new(named).token().ok()?;
        events.push(token.key(), found).ok()?;
    }
    Some(events)
}

fn dispatch<D, R>(rt: &R, event_loop: &mut ScriptLoop<D, R>, back: &mut Back<R>) -> Option<()>
where
    D: EventDispatcher<ScriptPoller, ScriptClock, R, Data = Back<R>>,
    R: Wait + Clone + Drop,
{
    let timeout = Some(Duration::ZERO);
    match event_loop.dispatch(rt, timeout, back) {
        Err(Error::OutOfMemory) => event_loop.dispatch(rt, timeout, back).ok(),
        answer => answer.ok(),
    }
}
