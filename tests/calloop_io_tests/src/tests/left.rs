//! Adapters whose sockets were taken out, or that the poller fails to delete.
use super::desk::Silent;
use super::looks::{Adapted, Held, look, new_adapted};
use calloop::{
    Adapter, Choice, Dispatcher, Error, EventDispatcher, Here, Instant, LoopKeep,
    RegistrationToken, ScriptLoop, There, Timer,
};
use calloop_script::{ScriptClock, ScriptIo, ScriptKind, ScriptPoller};
use std::alloc::Global;
use std::io;
use std::sync::Wait;
use std::time::Duration;

#[test]
fn an_adapter_whose_registered_socket_was_taken_out_is_not_found(rt: HostRuntime) {
    let found = finds_no_socket::<Held<HostRuntime>, HostRuntime>(&rt, rt.alloc());
    assert_eq!(rt; found, Some(true));
}

#[test]
fn a_dropped_adapter_that_cannot_be_deleted_leaves_with_a_warning(rt: HostRuntime) {
    for cause in [Cause::Fault, Cause::NoSocket] {
        let left = leaves_with_a_warning::<Held<HostRuntime>, HostRuntime>(&rt, rt.alloc(), cause);
        assert_eq!(rt; left, Some(true));
    }
}

/// Why the socket of a dropped adapter isn't deleted.
#[derive(Clone, Copy, PartialEq, Eq)]
enum Cause {
    /// The poller fails.
    Fault,
    /// It was taken out before.
    NoSocket,
}

// A loop with one adapter in its first slot, whose socket is registered.
fn register_new<D, R>(rt: &R, alloc: Global) -> Option<Adapted<D, R>>
where
    D: EventDispatcher<ScriptPoller, ScriptClock, R, Data = ()>,
    D: LoopKeep<Adapter<ScriptIo, R>, ScriptPoller, ScriptClock, R, Here>,
    R: Wait + Clone + Drop,
{
    let (mut event_loop, io): Adapted<D, R> = new_adapted(rt, alloc, 1)?;
    let io = look(rt, &mut event_loop, alloc, io)?;
    Some((event_loop, io))
}

// Whether an adapter whose registered socket was taken out is refused so, and stays until its socket is there again.
fn finds_no_socket<D, R>(rt: &R, alloc: Global) -> Option<bool>
where
    D: EventDispatcher<ScriptPoller, ScriptClock, R, Data = ()>,
    D: LoopKeep<Adapter<ScriptIo, R>, ScriptPoller, ScriptClock, R, Here>,
    R: Wait + Clone + Drop,
{
    let (mut event_loop, io): (ScriptLoop<D, R>, _) = register_new(rt, alloc)?;
    let mut io = io;
    let socket = io.get_mut().take()?;
    let Err(refused) = event_loop.handle().into_inner(io) else {
        return Some(false);
    };
    let is_missing = match &refused.error {
        Error::IoError(cause) => cause.kind() == io::ErrorKind::NotFound,
        _ => false,
    };
    let mut back = refused.inserted;
    *back.get_mut() = Some(socket);
    let socket = event_loop.handle().into_inner(back).ok()?;
    Some(is_missing && socket.number == 1)
}

// Whether the dispatch in which it leaves has one warning, and its slot is vacant behind it.
fn leaves_with_a_warning<D, R>(rt: &R, alloc: Global, cause: Cause) -> Option<bool>
where
    D: EventDispatcher<ScriptPoller, ScriptClock, R, Data = ()>,
    D: LoopKeep<Adapter<ScriptIo, R>, ScriptPoller, ScriptClock, R, Here>,
    D: Choice<Timer, Silent, There<Here>>,
    R: Wait + Clone + Drop,
{
    let (mut event_loop, mut io): (ScriptLoop<D, R>, _) = register_new(rt, alloc)?;
    match cause {
        Cause::Fault => event_loop.handle().poller_mut().fail(ScriptKind::Delete),
        Cause::NoSocket => drop(io.get_mut().take()),
    }
    drop(io);
    event_loop.dispatch(rt, Some(Duration::ZERO), &mut ()).ok()?;
    let is_told = match event_loop.handle().warnings() {
        [Error::IoError(fault)] => {
            (fault.kind() == io::ErrorKind::NotFound) == (cause == Cause::NoSocket)
        }
        _ => false,
    };
    let timer = Dispatcher::new(Timer::from_deadline(Instant::from_millis(9)), Silent);
    let held = <D as Choice<Timer, Silent, There<Here>>>::hold(timer);
    let token = event_loop.handle().register_dispatcher(held).ok()?;
    Some(is_told && token == RegistrationToken::new(0, 1))
}
