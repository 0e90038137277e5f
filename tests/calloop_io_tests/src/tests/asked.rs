//! A callback that asks for a socket to be adapted.
use calloop::ping::make_ping;
use calloop::{
    Adapter, Answer, Async, Callback, Choice, Dispatcher, Error, EventDispatcher, Here, OneOf,
    PingSource, Place, Requests, ScriptLoop, Sources, There, Ticket,
};
use calloop_script::{ScriptClock, ScriptIo, ScriptPoller};
use std::alloc::Global;
use std::sync::Wait;
use std::time::Duration;

/// What the callback was given.
#[derive(Drop)]
struct Given<R: Wait + Drop> {
    ticket: Option<Ticket>,
    io: Option<Async<ScriptIo, R>>,
}

/// Asks for socket 1 to be adapted.
#[derive(Drop)]
struct Asker<R: Wait + Drop> {
    rt: R,
    alloc: Global,
}

impl<D, R> Callback<(), (), (), Given<R>, Requests<D, ()>> for Asker<R>
where
    D: Place<Adapter<ScriptIo, R>, There<Here>> + Drop,
    R: Wait + Clone + Drop,
{
    ghost may = { λ _ _ _ _ _ _ _ _ _ _. Unit {0} };

    fn call(
        &mut self,
        _event: (),
        _: &mut (),
        given: &mut Given<R>,
        requests: &mut Requests<D, ()>,
    ) {
        let socket = ScriptIo { number: 1 };
        if let Ok((ticket, io)) = requests.adapt(&self.rt, self.alloc, socket) {
            given.ticket = Some(ticket);
            given.io = Some(io);
        }
    }
}

type Held<R> = Sources<OneOf<Dispatcher<PingSource<R>, Asker<R>>, Adapter<ScriptIo, R>>, Given<R>>;

// Which slot the adapter has whose socket is asked to be adapted in a turn of the first slot, and the socket's number.
fn asks_in_a_turn<D, R>(rt: &R, alloc: Global) -> Option<(u32, i32)>
where
    D: EventDispatcher<ScriptPoller, ScriptClock, R, Data = Given<R>>,
    D: Choice<PingSource<R>, Asker<R>, Here>,
    R: Wait + Clone + Drop,
{
    let mut event_loop: ScriptLoop<D, R> = ScriptLoop::with_script(rt, alloc).ok()?;
    let mut given = Given {
        ticket: None,
        io: None,
    };
    let rung = rings(rt, alloc, &mut event_loop);
    let timeout = Some(Duration::ZERO);
    let is_done = rung && event_loop.dispatch(rt, timeout, &mut given).is_ok();
    if is_done {
        slot_of(&mut event_loop, &mut given)
    } else {
        None
    }
}

// Whether a ping that asks comes into the loop. It is rung, and goes.
fn rings<D, R>(rt: &R, alloc: Global, event_loop: &mut ScriptLoop<D, R>) -> bool
where
    D: EventDispatcher<ScriptPoller, ScriptClock, R, Data = Given<R>>,
    D: Choice<PingSource<R>, Asker<R>, Here>,
    R: Wait + Clone + Drop,
{
    let Some(own) = rt.clone().ok() else {
        return false;
    };
    let Ok((ping, source)) = make_ping(rt, alloc) else {
        return false;
    };
    let held = D::hold(Dispatcher::new(source, Asker { rt: own, alloc }));
    ping.ping();
    event_loop.handle().register_dispatcher(held).is_ok()
}

// The slot that was given, and the number of the socket that comes back.
fn slot_of<D, R>(event_loop: &mut ScriptLoop<D, R>, given: &mut Given<R>) -> Option<(u32, i32)>
where
    D: EventDispatcher<ScriptPoller, ScriptClock, R, Data = Given<R>>,
    R: Wait + Clone + Drop,
{
    let Answer::Inserted(token) = event_loop.handle().answer(given.ticket?)? else {
        return None;
    };
    let socket = event_loop.handle().into_inner(given.io.take()?).ok()?;
    Some((token.slot(), socket.number))
}

#[test]
fn an_adapter_that_is_asked_for_takes_the_next_slot(rt: HostRuntime) {
    let given = asks_in_a_turn::<Held<HostRuntime>, HostRuntime>(&rt, rt.alloc());
    assert_eq!(rt; given, Some((1, 1)));
}

#[test]
fn without_a_ticket_the_socket_comes_back(rt: HostRuntime) {
    let mut requests: Requests<Adapter<ScriptIo, HostRuntime>> = Requests::numbered_from(
        u64::MAX,
        rt.alloc(),
    );
    let socket = ScriptIo { number: 7 };
    let asked = requests.adapt::<ScriptIo, HostRuntime, Here>(&rt, rt.alloc(), socket);
    let back = match asked {
        Err(refused) if matches!(refused.error, Error::TooManyTickets) => {
            Some(refused.inserted.number)
        }
        _ => None,
    };
    assert_eq!(rt; back, Some(7));
}
