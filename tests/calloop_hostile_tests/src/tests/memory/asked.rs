//! What a callback asks for when memory is short, and answers that a refused dispatch leaves.
ghost use Rattle.calloop.specs.loop_logic.Askings.{OnlyAsks};

use super::super::desk::Note;
use super::{make_a_ping, make_loop, so, wants_memory};
use calloop::{
    Answer, Callback, Choice, Dispatcher, Error, EventDispatcher, Here, Idle, OneOf, Ping,
    PingSource, RegistrationToken, Requests, ScriptLoop, Sources, There, Ticket,
};
use calloop_script::{ScriptClock, ScriptPoller};
use calloop_test_sources::source::Teller;
use std::alloc::Global;
use std::cell::Cell;
use std::rc::Rc;
use std::sync::Wait;
use std::time::Duration;

#[test]
fn what_was_refused_to_a_callback_is_handed_back_and_nothing_was_written(rt: HostRuntime) {
    assert_eq!(rt;
        asks_all::<Held<HostRuntime>, HostRuntime>(&rt, rt.alloc()),
        Some(true)
    );
}

#[test]
fn a_refused_dispatch_leaves_the_answers(rt: HostRuntime) {
    assert_eq!(rt;
        keeps_answers::<Held<HostRuntime>, HostRuntime>(&rt, rt.alloc()),
        Some(true)
    );
}

/// Asks for each thing that can be asked for, by two tries each, and says 1; or 99 if it can't.
#[derive(Drop)]
struct Asker<R: Wait + Drop> {
    // A ping that is to come in, once.
    source: Option<PingSource<R>>,
    // The ticket of that.
    ticket: Rc<Cell<Option<Ticket>>>,
}

impl<R: Wait + Drop> Asker<R> {
    fn asks<D>(&mut self, requests: &mut Requests<D, Note>) -> Option<()>
    where
        D: Choice<PingSource<R>, Teller, There<Here>> + Drop,
        ensures { OnlyAsks requests.old requests.new }
    {
        let ticket = inserts(self.source.take()?, requests)?;
        self.ticket.set(Some(ticket));
        twice(Of::Enable, requests)?;
        twice(Of::Update, requests)?;
        twice(Of::Disable, requests)?;
        twice(Of::Remove, requests)?;
        let _idle = idles(5, requests)?;
        let cancelled = idles(6, requests)?;
        cancels(cancelled, requests)
    }
}

/// What is asked of a source that isn't there.
#[derive(Clone, Copy)]
enum Of {
    Enable,
    Update,
    Disable,
    Remove,
}

// Asks for the insertion of a ping's source that says 2, by two tries.
fn inserts<D, R>(source: PingSource<R>, requests: &mut Requests<D, Note>) -> Option<Ticket>
where
    D: Choice<PingSource<R>, Teller, There<Here>> + Drop,
    R: Wait + Drop,
    ensures { OnlyAsks requests.old requests.new }
{
    let held = D::hold(Dispatcher::new(source, Teller { number: 2 }));
    match requests.register_dispatcher(held) {
        Ok(ticket) => Some(ticket),
        Err(refused) => {
            so(wants_memory(&refused.error))?;
            requests.register_dispatcher(refused.inserted).ok()
        }
    }
}

// Asks for it by two tries.
fn twice<D: Drop>(of: Of, requests: &mut Requests<D, Note>) -> Option<()>
    ensures { OnlyAsks requests.old requests.new }
{
    match once(of, requests) {
        Ok(_ticket) => Some(()),
        Err(error) => {
            so(wants_memory(&error))?;
            once(of, requests).ok().map(drop)
        }
    }
}

fn once<D: Drop>(of: Of, requests: &mut Requests<D, Note>) -> Result<Ticket, Error>
    ensures { OnlyAsks requests.old requests.new }
{
    let dead = RegistrationToken::new(7, 7);
    match of {
        Of::Enable => requests.enable(&dead),
        Of::Update => requests.update(&dead),
        Of::Disable => requests.disable(&dead),
        Of::Remove => requests.remove(dead),
    }
}

// Asks for an idle that says this number, by two tries.
fn idles<D: Drop>(number: u32, requests: &mut Requests<D, Note>) -> Option<Idle>
    ensures { OnlyAsks requests.old requests.new }
{
    match requests.insert_idle(Note(number)) {
        Ok(idle) => Some(idle),
        Err(refused) => {
            so(wants_memory(&refused.error))?;
            requests.insert_idle(refused.inserted).ok()
        }
    }
}

// Asks for an idle not to be run, by two tries.
fn cancels<D: Drop>(idle: Idle, requests: &mut Requests<D, Note>) -> Option<()>
    ensures { OnlyAsks requests.old requests.new }
{
    match requests.cancel(idle) {
        Ok(_ticket) => Some(()),
        Err(refused) => {
            so(wants_memory(&refused.error))?;
            requests.cancel(refused.inserted).ok().map(drop)
        }
    }
}

impl<D, R> Callback<(), (), (), Vec<u32>, Requests<D, Note>> for Asker<R>
where
    D: Choice<PingSource<R>, Teller, There<Here>> + Drop,
    R: Wait + Drop,
{
    ghost may = { λ _ _ _ _ _ _ _ _ _ _. Unit {0} };

    fn call(
        &mut self,
        _event: (),
        _: &mut (),
        said: &mut Vec<u32>,
        requests: &mut Requests<D, Note>,
    ) {
        let number = match self.asks(requests) {
            Some(()) => 1,
            None => 99,
        };
        let _failed = said.push(number);
    }
}

type Held<R> = Sources<
    OneOf<Dispatcher<PingSource<R>, Asker<R>>, Dispatcher<PingSource<R>, Teller>>,
    Vec<u32>,
    Note,
>;

/// A loop with an asker, which was rung, and what is to come in.
#[derive(Drop)]
struct Rung<D, R>
where
    D: EventDispatcher<ScriptPoller, ScriptClock, R>,
    R: Wait + Drop,
{
    event_loop: ScriptLoop<D, R>,
    said: Vec<u32>,
    ping: Ping<R>,
    other: Ping<R>,
    token: RegistrationToken,
    ticket: Rc<Cell<Option<Ticket>>>,
}

fn make_rung<D, R>(rt: &R, alloc: Global) -> Option<Rung<D, R>>
where
    D: EventDispatcher<ScriptPoller, ScriptClock, R, Data = Vec<u32>, Idle = Note>,
    D: Choice<PingSource<R>, Asker<R>, Here>,
    R: Wait + Clone + Drop,
{
    let (mut event_loop, said) = make_loop::<D, R>(rt, alloc)?;
    let (other, source) = make_a_ping(rt, alloc)?;
    let ticket = match Rc::new(alloc, Cell::new(None)) {
        Ok(ticket) => ticket,
        Err(_) => Rc::new(alloc, Cell::new(None)).ok()?,
    };
    let asker = Asker {
        source: Some(source),
        ticket: ticket.clone().ok()?,
    };
    let (ping, source) = make_a_ping(rt, alloc)?;
    let held = <D as Choice<PingSource<R>, Asker<R>, Here>>::hold(Dispatcher::new(source, asker));
    let token = match event_loop.handle().register_dispatcher(held) {
        Ok(token) => token,
        Err(refused) => {
            so(wants_memory(&refused.error))?;
            event_loop
                .handle()
                .register_dispatcher(refused.inserted)
                .ok()?
        }
    };
    let _receipt = ping.ping();
    let _receipt = other.ping();
    Some(Rung {
        event_loop,
        said,
        ping,
        other,
        token,
        ticket,
    })
}

// Whether one dispatch says 1 and runs the idle that wasn't cancelled, and the next one calls the ping that came in.
fn asks_all<D, R>(rt: &R, alloc: Global) -> Option<bool>
where
    D: EventDispatcher<ScriptPoller, ScriptClock, R, Data = Vec<u32>, Idle = Note>,
    D: Choice<PingSource<R>, Asker<R>, Here>,
    R: Wait + Clone + Drop,
{
    let mut desk = make_rung::<D, R>(rt, alloc)?;
    dispatch(rt, &mut desk.event_loop, &mut desk.said)?;
    so(desk.said.as_slice() == [1, 5].as_slice())?;
    so(desk.event_loop.handle().warnings().is_empty())?;
    let ticket = desk.ticket.get()?;
    let came_in = match desk.event_loop.handle().answer(ticket)? {
        Answer::Inserted(_) => true,
        // The insertion was refused, and hands the source back.
        Answer::NotInserted(refused) => {
            so(wants_memory(&refused.error))?;
            false
        }
        _ => return None,
    };
    desk.said.clear();
    dispatch(rt, &mut desk.event_loop, &mut desk.said)?;
    Some(if came_in {
        desk.said.as_slice() == [2].as_slice()
    } else {
        desk.said.is_empty()
    })
}

fn dispatch<D, R>(rt: &R, event_loop: &mut ScriptLoop<D, R>, said: &mut Vec<u32>) -> Option<()>
where
    D: EventDispatcher<ScriptPoller, ScriptClock, R, Data = Vec<u32>>,
    R: Wait + Clone + Drop,
{
    let timeout = Some(Duration::ZERO);
    match event_loop.dispatch(rt, timeout, said) {
        Err(Error::OutOfMemory) if said.is_empty() => event_loop.dispatch(rt, timeout, said).ok(),
        answer => answer.ok(),
    }
}

// Whether the answers of a dispatch are there as long as the next one is refused, and gone once it isn't. The asker has left: else
// the answer would wait for its next turn.
fn keeps_answers<D, R>(rt: &R, alloc: Global) -> Option<bool>
where
    D: EventDispatcher<ScriptPoller, ScriptClock, R, Data = Vec<u32>, Idle = Note>,
    D: Choice<PingSource<R>, Asker<R>, Here>,
    D: Choice<PingSource<R>, Teller, There<Here>>,
    R: Wait + Clone + Drop,
{
    let mut desk = make_rung::<D, R>(rt, alloc)?;
    dispatch(rt, &mut desk.event_loop, &mut desk.said)?;
    so(desk.said.as_slice() == [1, 5].as_slice())?;
    desk.said.clear();
    drop(desk.event_loop.handle().remove(desk.token)?);
    // So many that the next dispatch needs more room.
    for _ in 0..40u32 {
        let (ping, source) = make_a_ping(rt, alloc)?;
        drop(ping);
        let held = <D as Choice<PingSource<R>, Teller, There<Here>>>::hold(Dispatcher::new(
            source,
            Teller { number: 2 },
        ));
        if let Err(refused) = desk.event_loop.handle().register_dispatcher(held) {
            so(wants_memory(&refused.error))?;
            desk.event_loop
                .handle()
                .register_dispatcher(refused.inserted)
                .ok()?;
        }
    }
    let ticket = desk.ticket.get()?;
    let timeout = Some(Duration::ZERO);
    let answer = desk.event_loop.dispatch(rt, timeout, &mut desk.said);
    let is_answered = desk.event_loop.handle().answer(ticket).is_some();
    match answer {
        Err(Error::OutOfMemory) => Some(is_answered && desk.said.is_empty()),
        answer => {
            answer.ok()?;
            // The ping that was asked for came in, or was refused.
            let is_called = desk.said.as_slice() == [2].as_slice() || desk.said.is_empty();
            Some(!is_answered && is_called)
        }
    }
}
