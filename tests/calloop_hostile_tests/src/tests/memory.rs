//! Loops when memory is short: what was refused has changed nothing, comes back, and goes through at the second try.
//!
//! `checks/memory` runs these with each allocation refused in turn, and `what_takes_no_memory_succeeds` with all from there on.
use super::desk::Note;
use calloop::generic::Generic;
use calloop::ping::make_ping;
use calloop::{
    Choice, Dispatcher, Error, EventDispatcher, Here, InsertError, Instant, Interest, Keep, Mode,
    On, OneOf, Ping, PingSource, PostAction, RegistrationToken, Requests, ScriptLoop, Sources,
    There, TimeoutAction, TimeoutFuture, TimeoutTimer, Timer,
};
use calloop_script::{ScriptClock, ScriptIo, ScriptKind, ScriptPoller};
use calloop_test_sources::shifting::Shifting;
use calloop_test_sources::source::{Teller, Waker};
use calloop_test_sources::visitor::Visitor;
use std::alloc::Global;
use std::io;
use std::sync::Wait;
use std::time::Duration;

mod asked;
mod none;

#[test]
fn a_ping_that_was_refused_leaves_its_slot_vacant_and_moves_its_key(rt: HostRuntime) {
    assert_eq!(rt;
        moves_its_key::<Held<HostRuntime>, HostRuntime>(&rt, rt.alloc()),
        Some(true)
    );
}

#[test]
fn a_timer_that_was_refused_is_unarmed_and_an_update_arms_it(rt: HostRuntime) {
    assert_eq!(rt;
        arms_again::<Held<HostRuntime>, HostRuntime>(&rt, rt.alloc()),
        Some(true)
    );
}

#[test]
fn a_timer_that_was_refused_in_its_turn_is_unarmed_and_an_update_arms_it(rt: HostRuntime) {
    assert_eq!(rt;
        arms_in_its_turn::<Held<HostRuntime>, HostRuntime>(&rt, rt.alloc()),
        Some(true)
    );
}

#[test]
fn a_socket_that_was_refused_was_told_to_no_poller(rt: HostRuntime) {
    assert_eq!(rt;
        tells_no_poller::<Held<HostRuntime>, HostRuntime>(&rt, rt.alloc()),
        Some(true)
    );
}

#[test]
fn a_timeout_that_was_refused_leaves_no_deadline(rt: HostRuntime) {
    assert_eq!(rt;
        leaves_no_deadline::<Held<HostRuntime>, HostRuntime>(&rt, rt.alloc()),
        Some(true)
    );
}

#[test]
fn a_warning_is_lost_and_all_else_goes_on(rt: HostRuntime) {
    assert_eq!(rt;
        loses_a_warning::<Held<HostRuntime>, HostRuntime>(&rt, rt.alloc()),
        Some(true)
    );
}

/// What a loop of these tests holds.
type Held<R> = Sources<
    OneOf<
        Dispatcher<Shifting<PingSource<R>>, Teller>,
        OneOf<
            Dispatcher<Timer, Waker>,
            OneOf<Dispatcher<Generic<ScriptIo>, Visitor>, TimeoutTimer<R>>,
        >,
    >,
    Vec<u32>,
    Note,
>;

type Second = There<Here>;

type Third = There<Second>;

type Fourth = There<Third>;

// A loop whose poller keeps four waits, and room for what is said.
fn make_loop<D, R>(rt: &R, alloc: Global) -> Option<(ScriptLoop<D, R>, Vec<u32>)>
where
    D: EventDispatcher<ScriptPoller, ScriptClock, R, Data = Vec<u32>>,
    R: Wait + Clone + Drop,
{
    let mut event_loop: ScriptLoop<D, R> = match ScriptLoop::with_script(rt, alloc) {
        Err(Error::OutOfMemory) => ScriptLoop::with_script(rt, alloc).ok()?,
        made => made.ok()?,
    };
    if event_loop.handle().poller_mut().keep_waits(4).is_err() {
        event_loop.handle().poller_mut().keep_waits(4).ok()?;
    }
    let said = match Vec::with_capacity(alloc, 8) {
        Ok(said) => said,
        Err(_) => Vec::with_capacity(alloc, 8).ok()?,
    };
    Some((event_loop, said))
}

fn make_a_ping<R: Wait + Clone + Drop>(rt: &R, alloc: Global) -> Option<(Ping<R>, PingSource<R>)> {
    match make_ping(rt, alloc) {
        Err(Error::OutOfMemory) => make_ping(rt, alloc).ok(),
        made => made.ok(),
    }
}

// Inserts it by one of two tries. Behind a refusal the first slot is vacant, and no warning stands.
fn insert<D, R>(event_loop: &mut ScriptLoop<D, R>, held: D) -> Option<RegistrationToken>
where
    D: EventDispatcher<ScriptPoller, ScriptClock, R, Data = Vec<u32>>,
    R: Wait + Clone + Drop,
{
    let token = match event_loop.handle().register_dispatcher(held) {
        Ok(token) => return is_first(token),
        Err(refused) => {
            let back = given_back(refused)?;
            let first = RegistrationToken::new(0, 0);
            let handle = event_loop.handle();
            so(handle.dispatcher(&first).is_err() && handle.warnings().is_empty())?;
            event_loop.handle().register_dispatcher(back).ok()?
        }
    };
    is_first(token)
}

// It names the first slot, in its first version or, behind a refusal, in the second.
fn is_first(token: RegistrationToken) -> Option<RegistrationToken> {
    so(token.slot() == 0 && token.version() <= 1)?;
    Some(token)
}

fn given_back<T: Drop>(refused: InsertError<T>) -> Option<T> {
    let InsertError { inserted, error } = refused;
    so(wants_memory(&error))?;
    Some(inserted)
}

// Also if the scripted poller wants it, which notes its calls.
fn wants_memory(error: &Error) -> bool {
    match error {
        Error::OutOfMemory => true,
        Error::IoError(cause) => cause.kind() == io::ErrorKind::OutOfMemory,
        _ => false,
    }
}

// What a dispatch says, by one of two tries. Behind a refusal nothing was said and no wait was asked.
fn says<D, R>(
    rt: &R,
    event_loop: &mut ScriptLoop<D, R>,
    said: &mut Vec<u32>,
    timeout: u64,
    numbers: &[u32],
) -> Option<()>
where
    D: EventDispatcher<ScriptPoller, ScriptClock, R, Data = Vec<u32>>,
    R: Wait + Clone + Drop,
{
    said.clear();
    let timeout = Some(Duration::from_millis(timeout));
    let waits = event_loop.handle().poller_mut().waits().len();
    match event_loop.dispatch(rt, timeout, said) {
        Err(Error::OutOfMemory) => {
            so(said.is_empty() && event_loop.handle().poller_mut().waits().len() == waits)?;
            event_loop.dispatch(rt, timeout, said).ok()?;
        }
        answer => answer.ok()?,
    }
    so(said.as_slice() == numbers)
}

fn were_asked<D, R>(event_loop: &mut ScriptLoop<D, R>, waits: &[u64]) -> bool
where
    D: EventDispatcher<ScriptPoller, ScriptClock, R, Data = Vec<u32>>,
    R: Wait + Clone + Drop,
{
    let mut handle = event_loop.handle();
    let noted = handle.poller_mut().waits();
    noted.len() == waits.len()
        && noted
            .iter()
            .zip(waits)
            .all(|(one, other)| *one == Some(Duration::from_millis(*other)))
}

// A refused update leaves key and place: the ring is called before it, behind it, and behind the second one.
fn moves_its_key<D, R>(rt: &R, alloc: Global) -> Option<bool>
where
    D: EventDispatcher<ScriptPoller, ScriptClock, R, Data = Vec<u32>>,
    D: Choice<Shifting<PingSource<R>>, Teller, Here>,
    R: Wait + Clone + Drop,
{
    let (mut event_loop, mut said) = make_loop::<D, R>(rt, alloc)?;
    let (ping, source) = make_a_ping(rt, alloc)?;
    let dispatcher = Dispatcher::new(Shifting::new(source), Teller { number: 7 });
    let _receipt = ping.ping();
    let token = insert(&mut event_loop, D::hold(dispatcher))?;
    says(rt, &mut event_loop, &mut said, 0, &[7])?;
    for _ in 0..2u32 {
        if let Err(error) = event_loop.handle().update(&token) {
            so(wants_memory(&error))?;
            let _receipt = ping.ping();
            says(rt, &mut event_loop, &mut said, 0, &[7])?;
            // The refused move has turned the wrapper, so that two of them bring the other key.
            event_loop.handle().update(&token).ok()?;
            event_loop.handle().update(&token).ok()?;
        }
        let _receipt = ping.ping();
        says(rt, &mut event_loop, &mut said, 0, &[7])?;
    }
    Some(true)
}

// A timer whose update was refused isn't armed: the next wait is asked up to the timeout. An update arms it.
fn arms_again<D, R>(rt: &R, alloc: Global) -> Option<bool>
where
    D: EventDispatcher<ScriptPoller, ScriptClock, R, Data = Vec<u32>>,
    D: Choice<Timer, Waker, Second>,
    R: Wait + Clone + Drop,
{
    let (mut event_loop, mut said) = make_loop::<D, R>(rt, alloc)?;
    let waker = Waker {
        number: 5,
        action: TimeoutAction::Drop,
    };
    let timer = Timer::from_deadline(Instant::from_millis(40));
    let token = insert(&mut event_loop, D::hold(Dispatcher::new(timer, waker)))?;
    if let Err(error) = event_loop.handle().update(&token) {
        so(wants_memory(&error))?;
        says(rt, &mut event_loop, &mut said, 30, &[])?;
        says(rt, &mut event_loop, &mut said, 30, &[])?;
        so(were_asked(&mut event_loop, &[30, 30]))?;
        event_loop.handle().update(&token).ok()?;
        says(rt, &mut event_loop, &mut said, 30, &[5])?;
        return Some(were_asked(&mut event_loop, &[30, 30, 0]));
    }
    says(rt, &mut event_loop, &mut said, 30, &[])?;
    says(rt, &mut event_loop, &mut said, 30, &[5])?;
    Some(were_asked(&mut event_loop, &[30, 10]))
}

// A timer that is called, and asks for another moment, which is refused, isn't armed and has that moment. An update arms it.
fn arms_in_its_turn<D, R>(rt: &R, alloc: Global) -> Option<bool>
where
    D: EventDispatcher<ScriptPoller, ScriptClock, R, Data = Vec<u32>>,
    D: Choice<Timer, Waker, Second>,
    R: Wait + Clone + Drop,
{
    let (mut event_loop, mut said) = make_loop::<D, R>(rt, alloc)?;
    let waker = Waker {
        number: 5,
        action: TimeoutAction::ToInstant(Instant::from_millis(40)),
    };
    let timer = Timer::from_deadline(Instant::from_millis(10));
    let token = insert(&mut event_loop, D::hold(Dispatcher::new(timer, waker)))?;
    let timeout = Some(Duration::from_millis(10));
    match event_loop.dispatch(rt, timeout, &mut said) {
        // Nothing was called: the dispatch itself was refused.
        Err(Error::OutOfMemory) if said.is_empty() => {
            event_loop.dispatch(rt, timeout, &mut said).ok()?;
        }
        // It was called, and is armed no more.
        Err(error) => {
            so(wants_memory(&error) && said.as_slice() == [5].as_slice())?;
            says(rt, &mut event_loop, &mut said, 20, &[])?;
            so(were_asked(&mut event_loop, &[10, 20]))?;
            event_loop.handle().update(&token).ok()?;
            says(rt, &mut event_loop, &mut said, 20, &[5])?;
            return Some(were_asked(&mut event_loop, &[10, 20, 10]));
        }
        Ok(()) => {}
    }
    so(said.as_slice() == [5].as_slice())?;
    says(rt, &mut event_loop, &mut said, 40, &[5])?;
    Some(were_asked(&mut event_loop, &[10, 30]))
}

// A refused socket is in no table, and its poller wasn't called; nor is it called twice by the second try.
fn tells_no_poller<D, R>(rt: &R, alloc: Global) -> Option<bool>
where
    D: EventDispatcher<ScriptPoller, ScriptClock, R, Data = Vec<u32>>,
    D: Choice<Generic<ScriptIo>, Visitor, Third>,
    R: Wait + Clone + Drop,
{
    let (mut event_loop, _said) = make_loop::<D, R>(rt, alloc)?;
    let held = held_socket::<D, R>();
    let token = match event_loop.handle().register_dispatcher(held) {
        Ok(token) => token,
        Err(refused) => {
            let back = given_back(refused)?;
            so(event_loop.handle().poller_mut().calls().is_empty())?;
            event_loop.handle().register_dispatcher(back).ok()?
        }
    };
    is_first(token)?;
    Some(event_loop.handle().poller_mut().calls().len() == 1)
}

fn held_socket<D, R>() -> D
where
    D: EventDispatcher<ScriptPoller, ScriptClock, R, Data = Vec<u32>>,
    D: Choice<Generic<ScriptIo>, Visitor, Third>,
    R: Wait + Clone + Drop,
{
    let socket = Generic::new(ScriptIo { number: 1 }, Interest::READ, Mode::Edge);
    let ends = Some(PostAction::Continue);
    D::hold(Dispatcher::new(socket, Visitor { number: 3, ends }))
}

// Behind a refused timeout a wait is asked up to its own timeout.
fn leaves_no_deadline<D, R>(rt: &R, alloc: Global) -> Option<bool>
where
    D: EventDispatcher<ScriptPoller, ScriptClock, R, Data = Vec<u32>>,
    D: Keep<TimeoutTimer<R>, ScriptPoller, ScriptClock, R, Vec<u32>, Requests<D, D::Idle>, Fourth>,
    R: Wait + Clone + Drop,
{
    let (mut event_loop, mut said) = make_loop::<D, R>(rt, alloc)?;
    let deadline = Instant::from_millis(30);
    let made = TimeoutFuture::from_deadline(&mut event_loop.handle(), rt, alloc, deadline);
    if let Err(error) = made {
        so(wants_memory(&error))?;
        says(rt, &mut event_loop, &mut said, 20, &[])?;
        says(rt, &mut event_loop, &mut said, 20, &[])?;
        so(were_asked(&mut event_loop, &[20, 20]))?;
        TimeoutFuture::from_deadline(&mut event_loop.handle(), rt, alloc, deadline).ok()?;
        says(rt, &mut event_loop, &mut said, 20, &[])?;
        return Some(were_asked(&mut event_loop, &[20, 20, 0]));
    }
    says(rt, &mut event_loop, &mut said, 20, &[])?;
    says(rt, &mut event_loop, &mut said, 20, &[])?;
    Some(were_asked(&mut event_loop, &[20, 10]))
}

// A socket that the poller fails to delete leaves its slot, with a warning or, if that was refused, without one.
fn loses_a_warning<D, R>(rt: &R, alloc: Global) -> Option<bool>
where
    D: EventDispatcher<ScriptPoller, ScriptClock, R, Data = Vec<u32>>,
    D: Choice<Generic<ScriptIo>, Visitor, Third>,
    R: Wait + Clone + Drop,
{
    let (mut event_loop, mut said) = make_loop::<D, R>(rt, alloc)?;
    let token = insert(&mut event_loop, held_socket::<D, R>())?;
    event_loop.handle().poller_mut().fail(ScriptKind::Delete);
    let removed = event_loop.handle().remove(token)?;
    so(event_loop.handle().warnings().len() <= 1)?;
    so(event_loop.handle().dispatcher(&token).is_err())?;
    drop(removed);
    says(rt, &mut event_loop, &mut said, 20, &[])?;
    Some(event_loop.handle().warnings().is_empty())
}

fn so(is: bool) -> Option<()> {
    if is { Some(()) } else { None }
}
