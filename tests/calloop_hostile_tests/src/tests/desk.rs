//! A loop over a scripted poller, and what a test does at it.
use calloop::generic::Generic;
use calloop::ping::{Ping, make_ping};
use calloop::{
    Asking, Choice, Dispatcher, Error, EventDispatcher, Here, IdleCallback, Instant, Interest,
    Mode, OneOf, PingSource, PostAction, Readiness, RegistrationToken, ScriptLoop, Sources, There,
};
use calloop_script::{
    ScriptAnswer, ScriptCall, ScriptClock, ScriptEnd, ScriptEvents, ScriptIo, ScriptKind,
    ScriptPoller,
};
use calloop_slots::widths::{MOST_SLOTS, VERSIONS};
use calloop_test_sources::attendant::Attendant;
use calloop_test_sources::greedy::Greedy;
use calloop_test_sources::source::{Counter, Listener, Teller};
use calloop_test_sources::visitor::Visitor;
use std::alloc::Global;
use std::sync::Wait;
use std::time::Duration;

/// Why a dispatch fails.
#[derive(Clone, Copy, Debug, PartialEq, Eq)]
pub enum Why {
    Io,
    /// A source's own.
    Other,
    Tokens,
}

/// What a test does, or looks for. Times are in milliseconds.
#[derive(Clone, Copy)]
pub enum Act<'a> {
    /// A ping that says this number comes in.
    Ping(u32),
    /// A source that is told of waits: it asks for so many events, and fails before this wait. It says how many waits there were.
    Attendant(u32, u32),
    /// A source that says how many turns it had.
    Counter,
    /// A ping that says this number, and can't be registered anew, as it is to be behind each turn.
    Greedy(u32),
    /// Socket 1 comes in, and says this number.
    Socket(u32),
    /// It is refused by the poller's fault, and handed back.
    NoSocket,
    /// An idle that says this number.
    Idle(u32),
    /// The ping in this place of those that came in is rung.
    Ring(usize),
    /// A wait is scripted that gives events of these keys at this moment.
    Keys(u64, &'a [u64]),
    /// One that is interrupted at this moment.
    Interrupted(u64),
    /// One that fails at this moment.
    Fault(u64),
    /// The poller's next call of this kind fails.
    FailAt(ScriptKind),
    /// A dispatch succeeds in which these numbers are said.
    Says(u64, &'a [u32]),
    /// One fails so, in which these numbers are said.
    Fails(u64, &'a [u32], Why),
    /// The poller was asked for these waits since this was asked before.
    Asked(&'a [u64]),
    /// The poller has had these calls for sockets.
    Calls(&'a [ScriptCall]),
    /// The slot and the version name a source, or none.
    Names(u32, u32, bool),
    /// A call that names them succeeds, or fails by the poller's fault.
    Enables(u32, u32, bool),
    Updates(u32, u32, bool),
    Disables(u32, u32, bool),
    /// The source that they name leaves the loop, with so many warnings.
    Removes(u32, u32, usize),
    /// Socket 1 leaves the first slot and comes in again, this many times.
    Reuses(u32),
}

/// Says its number.
#[derive(Drop)]
pub struct Note(pub u32);

impl<Q: Asking> IdleCallback<Vec<u32>, Q> for Note {
    ghost use Rattle.std.specs.Prelude.{◌≡◌};

    ghost runs = { λ _ _ q _ r. r ≡ q };

    fn run(self, said: &mut Vec<u32>, _requests: &mut Q) {
        let _failed = said.push(self.0);
    }
}

type Second = There<Here>;

type Third = There<Second>;

type Fourth = There<Third>;

type Fifth = There<Fourth>;

/// What a loop of these tests holds.
pub type Held<R> = Sources<
    OneOf<
        Dispatcher<PingSource<R>, Teller>,
        OneOf<
            Dispatcher<Attendant, Listener>,
            OneOf<
                Dispatcher<Counter, Listener>,
                OneOf<Dispatcher<Greedy<R>, Teller>, Dispatcher<Generic<ScriptIo>, Visitor>>,
            >,
        >,
    >,
    Vec<u32>,
    Note,
>;

#[derive(Drop)]
struct Desk<D, R>
where
    D: EventDispatcher<ScriptPoller, ScriptClock, R>,
    R: Wait + Drop,
{
    rt: R,
    alloc: Global,
    event_loop: ScriptLoop<D, R>,
    pings: Vec<Ping<R>>,
    // The registration of the socket that came in last.
    socket: Option<RegistrationToken>,
    said: Vec<u32>,
}

impl<D, R> Desk<D, R>
where
    D: EventDispatcher<ScriptPoller, ScriptClock, R, Data = Vec<u32>, Idle = Note>,
    D: Choice<PingSource<R>, Teller, Here>,
    D: Choice<Attendant, Listener, Second>,
    D: Choice<Counter, Listener, Third>,
    D: Choice<Greedy<R>, Teller, Fourth>,
    D: Choice<Generic<ScriptIo>, Visitor, Fifth>,
    R: Wait + Clone + Drop,
{
    // Its poller keeps eight waits.
    fn new(rt: &R, alloc: Global) -> Option<Desk<D, R>> {
        let mut event_loop: ScriptLoop<D, R> = ScriptLoop::with_script(rt, alloc).ok()?;
        event_loop.handle().poller_mut().keep_waits(8).ok()?;
        Some(Desk {
            rt: rt.clone().ok()?,
            alloc,
            event_loop,
            pings: Vec::new(alloc),
            socket: None,
            said: Vec::new(alloc),
        })
    }

    /// The place of the first act that isn't as it is wanted.
    fn play(&mut self, acts: &[Act<'_>]) -> Option<usize> {
        acts.iter().position(|act| self.does(*act).is_none())
    }

    fn does(&mut self, act: Act<'_>) -> Option<()> {
        match act {
            Act::Ping(number) => self.ping(number),
            Act::Attendant(asks, fails_at) => self.attendant(asks, fails_at),
            Act::Counter => self.counter(),
            Act::Greedy(number) => self.greedy(number),
            Act::Socket(number) => {
                self.socket = self.socket(number);
                so(self.socket.is_some())
            }
            Act::NoSocket => self.is_refused(),
            Act::Idle(number) => self.idle(number),
            Act::Ring(place) => self.ring(place),
            Act::Keys(millis, keys) => self.keys(millis, keys),
            Act::Interrupted(millis) => self.script(millis, ScriptEnd::Interrupted),
            Act::Fault(millis) => self.script(millis, ScriptEnd::Fault),
            Act::FailAt(kind) => {
                self.event_loop.handle().poller_mut().fail(kind);
                Some(())
            }
            Act::Says(timeout, numbers) => so(self.dispatch(timeout, numbers)? == None),
            Act::Fails(timeout, numbers, why) => so(self.dispatch(timeout, numbers)? == Some(why)),
            Act::Asked(waits) => self.expect_asked(waits),
            Act::Calls(calls) => so(self.event_loop.handle().poller_mut().calls() == calls),
            _ => self.names(act),
        }
    }

    fn names(&mut self, act: Act<'_>) -> Option<()> {
        match act {
            Act::Names(slot, version, names) => {
                let token = registration(slot, version);
                so(self.event_loop.handle().dispatcher(&token).is_ok() == names)
            }
            Act::Enables(slot, version, goes) => {
                let token = registration(slot, version);
                went(self.event_loop.handle().enable(&token), goes)
            }
            Act::Updates(slot, version, goes) => {
                let token = registration(slot, version);
                went(self.event_loop.handle().update(&token), goes)
            }
            Act::Disables(slot, version, goes) => {
                let token = registration(slot, version);
                went(self.event_loop.handle().disable(&token), goes)
            }
            Act::Removes(slot, version, warnings) => {
                let token = registration(slot, version);
                let removed = self.event_loop.handle().remove(token)?;
                drop(removed);
                so(self.event_loop.handle().warnings().len() == warnings)
            }
            Act::Reuses(times) => self.reuses(times),
            _ => None,
        }
    }

    fn insert(&mut self, held: D) -> Option<RegistrationToken> {
        self.event_loop.handle().register_dispatcher(held).ok()
    }

    fn ping(&mut self, number: u32) -> Option<()> {
        let (ping, source) = make_ping(&self.rt, self.alloc).ok()?;
        self.pings.push(ping).ok()?;
        let dispatcher = Dispatcher::new(source, Teller { number });
        let held = <D as Choice<PingSource<R>, Teller, Here>>::hold(dispatcher);
        self.insert(held).map(drop)
    }

    fn greedy(&mut self, number: u32) -> Option<()> {
        let (ping, source) = make_ping(&self.rt, self.alloc).ok()?;
        self.pings.push(ping).ok()?;
        let dispatcher = Dispatcher::new(Greedy { ping: source }, Teller { number });
        let held = <D as Choice<Greedy<R>, Teller, Fourth>>::hold(dispatcher);
        self.insert(held).map(drop)
    }

    fn attendant(&mut self, asks: u32, fails_at: u32) -> Option<()> {
        let mut attendant = Attendant::new(asks);
        attendant.fails_at = fails_at;
        let dispatcher = Dispatcher::new(attendant, Listener);
        let held = <D as Choice<Attendant, Listener, Second>>::hold(dispatcher);
        self.insert(held).map(drop)
    }

    fn counter(&mut self) -> Option<()> {
        let counter = Counter::new(1, Some(PostAction::Continue));
        let dispatcher = Dispatcher::new(counter, Listener);
        let held = <D as Choice<Counter, Listener, Third>>::hold(dispatcher);
        self.insert(held).map(drop)
    }

    fn held_socket(&self, number: u32) -> D {
        let socket = Generic::new(ScriptIo { number: 1 }, Interest::READ, Mode::Edge);
        let ends = Some(PostAction::Continue);
        let dispatcher = Dispatcher::new(socket, Visitor { number, ends });
        <D as Choice<Generic<ScriptIo>, Visitor, Fifth>>::hold(dispatcher)
    }

    fn socket(&mut self, number: u32) -> Option<RegistrationToken> {
        let held = self.held_socket(number);
        self.insert(held)
    }

    fn is_refused(&mut self) -> Option<()> {
        let held = self.held_socket(1);
        match self.event_loop.handle().register_dispatcher(held) {
            Ok(_) => None,
            Err(refused) => so(matches!(refused.error, Error::IoError(_))),
        }
    }

    fn reuses(&mut self, times: u32) -> Option<()> {
        for _ in 0..times {
            drop(self.event_loop.handle().remove(self.socket?)?);
            self.socket = self.socket(1);
        }
        so(self.socket?.slot() == 0)
    }

    fn idle(&mut self, number: u32) -> Option<()> {
        self.event_loop
            .handle()
            .insert_idle(Note(number))
            .ok()
            .map(drop)
    }

    fn ring(&mut self, place: usize) -> Option<()> {
        let _receipt = self.pings.get(place)?.ping();
        Some(())
    }

    fn keys(&mut self, millis: u64, keys: &[u64]) -> Option<()> {
        let found = Readiness {
            readable: true,
            writable: false,
            error: false,
        };
        let mut events = ScriptEvents::new(self.alloc);
        for key in keys {
            events.push(*key, found).ok()?;
        }
        self.script(millis, ScriptEnd::Events(events))
    }

    fn script(&mut self, millis: u64, end: ScriptEnd) -> Option<()> {
        let moment = Instant::from_millis(millis);
        let answer = ScriptAnswer { moment, end };
        self.event_loop.handle().poller_mut().script(answer).ok()
    }

    // Why a dispatch fails, in which these numbers are said.
    fn dispatch(&mut self, timeout: u64, numbers: &[u32]) -> Option<Option<Why>> {
        self.said.clear();
        let timeout = Some(Duration::from_millis(timeout));
        let answer = self.event_loop.dispatch(&self.rt, timeout, &mut self.said);
        so(self.said.as_slice() == numbers)?;
        match answer {
            Ok(()) => Some(None),
            Err(Error::IoError(_)) => Some(Some(Why::Io)),
            Err(Error::OtherError(_)) => Some(Some(Why::Other)),
            Err(Error::TooManyTokens) => Some(Some(Why::Tokens)),
            Err(_) => None,
        }
    }

    fn expect_asked(&mut self, waits: &[u64]) -> Option<()> {
        let mut handle = self.event_loop.handle();
        let poller = handle.poller_mut();
        let same = are_waits(poller.waits(), waits);
        poller.keep_waits(8).ok()?;
        so(same)
    }
}

// The registration of these numbers, modulo how many there are.
fn registration(slot: u32, version: u32) -> RegistrationToken {
    RegistrationToken::new(slot % MOST_SLOTS as u32, version % VERSIONS as u32)
}

fn went(answer: calloop::Result<()>, goes: bool) -> Option<()> {
    match answer {
        Ok(()) => so(goes),
        Err(Error::IoError(_)) => so(!goes),
        Err(_) => None,
    }
}

fn are_waits(noted: &[Option<Duration>], waits: &[u64]) -> bool {
    noted.len() == waits.len()
        && noted
            .iter()
            .zip(waits)
            .all(|(one, other)| *one == Some(Duration::from_millis(*other)))
}

fn so(is: bool) -> Option<()> {
    if is { Some(()) } else { None }
}

/// Plays at a new desk: the place of the first act that isn't as it is wanted, or one behind the last if no desk can be made.
pub fn plays<R: Wait + Clone + Drop>(rt: &R, alloc: Global, acts: &[Act<'_>]) -> Option<usize> {
    let made: Option<Desk<Held<R>, R>> = Desk::new(rt, alloc);
    match made {
        Some(mut desk) => desk.play(acts),
        None => Some(acts.len()),
    }
}
