//! Two loops, and adapters of the one that are given back to the other.
use super::looks::{Adapted, Held, look, new_adapted};
use calloop::{Adapter, Async, Error, EventDispatcher, Here, LoopKeep, ScriptLoop, Sources};
use calloop_script::{ScriptClock, ScriptIo, ScriptKind, ScriptPoller};
use std::alloc::Global;
use std::sync::Wait;
use std::time::Duration;

#[test]
fn an_adapter_of_another_loop_is_refused_and_handed_back(rt: HostRuntime) {
    let refused = refuses_a_stranger::<Held<HostRuntime>, HostRuntime>(&rt, rt.alloc(), Own::Stays);
    assert_eq!(rt; refused, Some(true));
}

#[test]
fn an_adapter_of_another_loop_is_refused_where_the_own_one_was_kept_by_a_fault(rt: HostRuntime) {
    let refused = refuses_a_stranger::<Held<HostRuntime>, HostRuntime>(
        &rt,
        rt.alloc(),
        Own::IsKept,
    );
    assert_eq!(rt; refused, Some(true));
}

#[test]
fn an_adapter_of_another_loop_is_refused_where_the_own_one_was_dropped(rt: HostRuntime) {
    let refused = refuses_a_stranger::<Held<HostRuntime>, HostRuntime>(
        &rt,
        rt.alloc(),
        Own::IsDropped,
    );
    assert_eq!(rt; refused, Some(true));
}

#[test]
fn a_loop_whose_last_kind_is_an_adapter_takes_one(rt: HostRuntime) {
    let refused = refuses_a_stranger::<Alone<HostRuntime>, HostRuntime>(
        &rt,
        rt.alloc(),
        Own::Stays,
    );
    assert_eq!(rt; refused, Some(true));
}

// A loop that holds adapters alone.
type Alone<R> = Sources<Adapter<ScriptIo, R>, ()>;

/// What becomes of the adapter that a loop has under the same token.
#[derive(Clone, Copy, PartialEq, Eq)]
enum Own {
    /// It stays.
    Stays,
    /// It was to be given back, and stays by a fault of the poller.
    IsKept,
    /// Its other end was dropped, and no dispatch came since.
    IsDropped,
}

// Whether a loop refuses to give back an adapter of another loop, which stands under the token of an own one, and which that loop then gives
// back.
fn refuses_a_stranger<D, R>(rt: &R, alloc: Global, own: Own) -> Option<bool>
where
    D: EventDispatcher<ScriptPoller, ScriptClock, R, Data = ()>,
    D: LoopKeep<Adapter<ScriptIo, R>, ScriptPoller, ScriptClock, R, Here>,
    R: Wait + Clone + Drop,
{
    let (mut here, first): Adapted<D, R> = new_adapted(rt, alloc, 1)?;
    let (mut there, second): Adapted<D, R> = new_adapted(rt, alloc, 2)?;
    let kept = after(rt, &mut here, alloc, first, own)?;
    let Err(refused) = here.handle().into_inner(second) else {
        return Some(false);
    };
    let is_invalid = matches!(refused.error, Error::InvalidToken);
    let socket = there.handle().into_inner(refused.inserted).ok()?;
    let is_own = match kept {
        Some(io) => here.handle().into_inner(io).ok()?.number == 1,
        None => here.dispatch(rt, Some(Duration::ZERO), &mut ()).is_ok(),
    };
    Some(is_invalid && socket.number == 2 && is_own)
}

// What is left of an adapter's other end, after this.
fn after<D, R>(
    rt: &R,
    event_loop: &mut ScriptLoop<D, R>,
    alloc: Global,
    io: Async<ScriptIo, R>,
    own: Own,
) -> Option<Option<Async<ScriptIo, R>>>
where
    D: EventDispatcher<ScriptPoller, ScriptClock, R, Data = ()>,
    R: Wait + Clone + Drop,
{
    match own {
        Own::Stays => Some(Some(io)),
        Own::IsKept => Some(Some(kept_on(rt, event_loop, alloc, io)?)),
        Own::IsDropped => {
            drop(io);
            Some(None)
        }
    }
}

// An adapter whose socket is registered, and that the poller fails to give back.
fn kept_on<D, R>(
    rt: &R,
    event_loop: &mut ScriptLoop<D, R>,
    alloc: Global,
    io: Async<ScriptIo, R>,
) -> Option<Async<ScriptIo, R>>
where
    D: EventDispatcher<ScriptPoller, ScriptClock, R, Data = ()>,
    R: Wait + Clone + Drop,
{
    let io = look(rt, event_loop, alloc, io)?;
    event_loop.handle().poller_mut().fail(ScriptKind::Delete);
    match event_loop.handle().into_inner(io) {
        Ok(_) => None,
        Err(refused) => Some(refused.inserted),
    }
}
