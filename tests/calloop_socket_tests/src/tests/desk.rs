//! A loop over pings, sockets that aren't there, and timers, over a scripted poller, and what a test does at it.
use super::is_refused;
use super::table::Table;
use calloop::generic::Generic;
use calloop::loop_logic::EventLoop;
use calloop::ping::{Ping, make_ping};
use calloop::sys::Watched;
use calloop::{
    Asking, Choice, Dispatcher, Error, EventDispatcher, Here, Hold, IdleCallback, InsertError,
    Instant, Interest, Mode, OneOf, PingSource, PostAction, Readiness, RegistrationToken, Requests,
    Sources, There, TimeoutAction, Timer,
};
use calloop_script::{
    ScriptAnswer, ScriptCall, ScriptClock, ScriptEnd, ScriptEvents, ScriptIo, ScriptKind,
    ScriptPoller,
};
use calloop_slots::widths::{MOST_SLOTS, VERSIONS};
use calloop_test_sources::source::{Teller, Waker};
use calloop_test_sources::visitor::Visitor;
use std::alloc::Global;
use std::io::ErrorKind;
use std::sync::Wait;
use std::time::Duration;

pub const GOES_ON: Option<PostAction> = Some(PostAction::Continue);

// The one key of the socket in the first slot, and in the second.
pub const KEY: u64 = 0;

pub const SECOND: u64 = 1 << 40;

pub const READ_LEVEL: Watched = Watched {
    interest: Interest::READ,
    mode: Mode::Level,
};

/// What a test does at a desk, or looks for. A socket goes by its place among those that came into the loop, and a ping by its place among the pings.
#[derive(Clone, Copy)]
pub enum Act<'a> {
    /// Socket number 1 comes into the loop, whose callback says 1 and ends so.
    Socket(Interest, Mode, Option<PostAction>),
    /// It is refused by the system, and handed back.
    NoSocket(Interest, Mode),
    /// A ping that says its number.
    Ping(u32),
    Ring(usize),
    /// A timer for the first moment, which says its number.
    Alarm(u32),
    /// An idle that says 9.
    Idle,
    /// The next wait gives an event of this key.
    Script(u64),
    /// A dispatch of 100 milliseconds succeeds in which these numbers are said.
    Says(&'a [u32]),
    /// It fails with another error, after these numbers.
    Breaks(&'a [u32]),
    /// An event of this key lets the callbacks say these numbers.
    Hears(u64, &'a [u32]),
    /// The next wait gives so many events of this key, and a dispatch succeeds in which the callback says 1 for each.
    HearsAll(u64, usize),
    /// The poller was called so for sockets.
    Called(&'a [ScriptCall]),
    /// It was asked for these waits, in milliseconds.
    Asked(&'a [u64]),
    /// Its next call of this kind fails.
    Fail(ScriptKind),
    Enable(usize),
    Update(usize),
    Disable(usize),
    /// A call is refused by the system in this way.
    NotEnabled(usize, ErrorKind),
    NotUpdated(usize, ErrorKind),
    NotDisabled(usize, ErrorKind),
    /// It came under this slot and version.
    IsAt(usize, u32, u32),
    Holds(usize),
    Remove(usize),
    /// It is removed and another one comes in, which reads by level and goes on, so often. The last one goes by its place.
    ComesAgain(usize, u32),
    /// It has another interest from its next registration on.
    SetInterest(usize, Interest),
    /// It is removed while the poller doesn't give it up, and hands itself back when it is unwrapped.
    KeepsItsSocket(usize),
}

/// What tests look for in a source with its callback.
pub trait Seen {
    // Sets the interest of a socket. False of anything else.
    fn interests(&mut self, interest: Interest) -> bool;

    // Whether it is a socket that hands itself back when it is unwrapped.
    fn keeps_its_socket(self) -> bool;
}

// A loop, and what came into it.
#[derive(Drop)]
struct Desk<D: EventDispatcher<ScriptPoller, ScriptClock, R>, R: Wait + Drop> {
    table: Table<D, ScriptPoller, ScriptClock, R>,
    tokens: Vec<RegistrationToken>,
    pings: Vec<Ping<R>>,
}

type Second = There<Here>;

type Third = There<There<Here>>;

impl<D, R> Desk<D, R>
where
    D: EventDispatcher<ScriptPoller, ScriptClock, R, Data = Vec<u32>, Idle = Note> + Seen,
    D: Choice<PingSource<R>, Teller, Here>,
    D: Hold<
        Generic<ScriptIo>,
        Visitor,
        ScriptPoller,
        ScriptClock,
        R,
        Vec<u32>,
        Requests<D, Note>,
        Second,
    >,
    D: Choice<Timer, Waker, Third>,
    R: Wait + Clone + Drop,
{
    fn does(&mut self, act: Act<'_>) -> bool {
        match act {
            Act::Socket(interest, mode, ends) => self.socket(interest, mode, ends),
            Act::NoSocket(interest, mode) => self.is_handed_back(interest, mode),
            Act::Ping(number) => self.ping(number),
            Act::Ring(place) => self.rings(place),
            Act::Alarm(number) => self.alarm(number),
            Act::Idle => self.table.event_loop.handle().insert_idle(Note).is_ok(),
            Act::Script(key) => self.scripts(key, 1),
            Act::Says(numbers) => self.says(numbers),
            Act::Breaks(numbers) => self.breaks(numbers),
            Act::Hears(key, numbers) => self.scripts(key, 1) && self.says(numbers),
            Act::HearsAll(key, count) => self.scripts(key, count) && self.says_so_often(count),
            _ => self.looks_for(act) == Some(true),
        }
    }

    fn looks_for(&mut self, act: Act<'_>) -> Option<bool> {
        match act {
            Act::Called(calls) => Some(self.was_called(calls)),
            Act::Asked(waits) => Some(self.was_asked(waits)),
            Act::Fail(kind) => {
                self.table.event_loop.handle().poller_mut().fail(kind);
                Some(true)
            }
            Act::IsAt(place, slot, version) => {
                Some(self.token(place)? == registration(slot, version))
            }
            Act::Holds(place) => self.holds(place),
            Act::Remove(place) => self.removes(place),
            Act::ComesAgain(place, times) => self.comes_again(place, times),
            Act::SetInterest(place, interest) => self.interests(place, interest),
            Act::KeepsItsSocket(place) => self.keeps_its_socket(place),
            _ => self.calls(act),
        }
    }

    fn calls(&mut self, act: Act<'_>) -> Option<bool> {
        match act {
            Act::Enable(place) => Some(self.enable(place)?.is_ok()),
            Act::Update(place) => Some(self.update(place)?.is_ok()),
            Act::Disable(place) => Some(self.disable(place)?.is_ok()),
            Act::NotEnabled(place, kind) => { Some(is_refused(&self.enable(place)?, kind)) }
            Act::NotUpdated(place, kind) => { Some(is_refused(&self.update(place)?, kind)) }
            Act::NotDisabled(place, kind) => { Some(is_refused(&self.disable(place)?, kind)) }
            _ => None,
        }
    }

    fn token(&self, place: usize) -> Option<RegistrationToken> {
        self.tokens.get(place).copied()
    }

    fn insert(
        &mut self,
        interest: Interest,
        mode: Mode,
        ends: Option<PostAction>,
    ) -> Result<RegistrationToken, InsertError<Generic<ScriptIo>>> {
        let source = Generic::new(ScriptIo { number: 1 }, interest, mode);
        let visitor = Visitor { number: 1, ends };
        self.table
            .event_loop
            .handle()
            .insert_source(source, visitor)
    }

    fn socket(&mut self, interest: Interest, mode: Mode, ends: Option<PostAction>) -> bool {
        match self.insert(interest, mode, ends) {
            Ok(token) => self.tokens.push(token).is_ok(),
            Err(_) => false,
        }
    }

    fn is_handed_back(&mut self, interest: Interest, mode: Mode) -> bool {
        match self.insert(interest, mode, GOES_ON) {
            Ok(_) => false,
            Err(InsertError { inserted, error }) => {
                is_refused::<()>(&Err(error), ErrorKind::Other) && inserted.unwrap().is_ok()
            }
        }
    }

    fn ping(&mut self, number: u32) -> bool {
        let Ok((ping, source)) = make_ping(&self.table.rt, self.table.alloc) else {
            return false;
        };
        let held = D::hold(Dispatcher::new(source, Teller { number }));
        let registered = self.table.event_loop.handle().register_dispatcher(held);
        registered.is_ok() && self.pings.push(ping).is_ok()
    }

    fn rings(&self, place: usize) -> bool {
        match self.pings.get(place) {
            Some(ping) => {
                let _receipt = ping.ping();
                true
            }
            None => false,
        }
    }

    fn alarm(&mut self, number: u32) -> bool {
        let timer = Timer::from_deadline(Instant { nanos: 0 });
        let waker = Waker {
            number,
            action: TimeoutAction::Drop,
        };
        let held = D::hold(Dispatcher::new(timer, waker));
        let mut handle = self.table.event_loop.handle();
        handle.register_dispatcher(held).is_ok()
    }

    fn scripts(&mut self, key: u64, count: usize) -> bool {
        let mut events = ScriptEvents::new(self.table.alloc);
        let readable = Readiness {
            readable: true,
            writable: false,
            error: false,
        };
        for _ in 0..count {
            if events.push(key, readable).is_err() {
                return false;
            }
        }
        let answer = ScriptAnswer {
            moment: Instant { nanos: 0 },
            end: ScriptEnd::Events(events),
        };
        let mut handle = self.table.event_loop.handle();
        handle.poller_mut().script(answer).is_ok()
    }

    fn dispatch(&mut self) -> (calloop::Result<()>, Vec<u32>) {
        let mut said = Vec::new(self.table.alloc);
        let timeout = Some(Duration::from_millis(100));
        let answer = self
            .table
            .event_loop
            .dispatch(&self.table.rt, timeout, &mut said);
        (answer, said)
    }

    fn says(&mut self, numbers: &[u32]) -> bool {
        let (answer, said) = self.dispatch();
        answer.is_ok() && said.as_slice() == numbers
    }

    fn says_so_often(&mut self, count: usize) -> bool {
        let (answer, said) = self.dispatch();
        answer.is_ok() && said.len() == count && said.iter().all(|number| *number == 1)
    }

    fn breaks(&mut self, numbers: &[u32]) -> bool {
        let (answer, said) = self.dispatch();
        matches!(answer, Err(Error::OtherError(_))) && said.as_slice() == numbers
    }

    fn was_called(&mut self, calls: &[ScriptCall]) -> bool {
        self.table.event_loop.handle().poller_mut().calls() == calls
    }

    fn was_asked(&mut self, waits: &[u64]) -> bool {
        are_waits(self.table.event_loop.handle().poller_mut().waits(), waits)
    }

    fn enable(&mut self, place: usize) -> Option<calloop::Result<()>> {
        let token = self.token(place)?;
        Some(self.table.event_loop.handle().enable(&token))
    }

    fn update(&mut self, place: usize) -> Option<calloop::Result<()>> {
        let token = self.token(place)?;
        Some(self.table.event_loop.handle().update(&token))
    }

    fn disable(&mut self, place: usize) -> Option<calloop::Result<()>> {
        let token = self.token(place)?;
        Some(self.table.event_loop.handle().disable(&token))
    }

    fn holds(&mut self, place: usize) -> Option<bool> {
        let token = self.token(place)?;
        Some(self.table.event_loop.handle().dispatcher(&token).is_ok())
    }

    fn removes(&mut self, place: usize) -> Option<bool> {
        let token = self.token(place)?;
        Some(self.table.event_loop.handle().remove(token).is_some())
    }

    fn comes_again(&mut self, place: usize, times: u32) -> Option<bool> {
        for _ in 0..times {
            let is_removed = self.removes(place)?;
            let Ok(token) = self.insert(Interest::READ, Mode::Level, GOES_ON) else {
                return Some(false);
            };
            *self.tokens.get_mut(place)? = token;
            if !is_removed {
                return Some(false);
            }
        }
        Some(true)
    }

    fn interests(&mut self, place: usize, interest: Interest) -> Option<bool> {
        let token = self.token(place)?;
        match self.table.event_loop.handle().dispatcher_mut(&token) {
            Ok(held) => Some(held.interests(interest)),
            Err(_) => Some(false),
        }
    }

    fn keeps_its_socket(&mut self, place: usize) -> Option<bool> {
        let token = self.token(place)?;
        let held = self.table.event_loop.handle().remove(token)?;
        Some(held.keeps_its_socket())
    }

    // The place of the first act that isn't as it is wanted.
    fn play(&mut self, acts: &[Act<'_>]) -> Option<usize> {
        for (place, act) in acts.iter().enumerate() {
            if !self.does(*act) {
                return Some(place);
            }
        }
        None
    }
}

/// Plays at a new desk: the place of the first act that isn't as it is wanted, or one behind the last if no desk can be made. This alone knows of
/// which types it is, and calls nothing else: a call on a loop whose types are written out costs the prover as much as a whole test.
pub fn plays<R: Wait + Clone + Drop>(rt: &R, alloc: Global, acts: &[Act<'_>]) -> Option<usize> {
    plays_over::<Held<R>, R>(rt, alloc, acts)
}

fn plays_over<D, R>(rt: &R, alloc: Global, acts: &[Act<'_>]) -> Option<usize>
where
    D: EventDispatcher<ScriptPoller, ScriptClock, R, Data = Vec<u32>, Idle = Note> + Seen,
    D: Choice<PingSource<R>, Teller, Here>,
    D: Hold<
        Generic<ScriptIo>,
        Visitor,
        ScriptPoller,
        ScriptClock,
        R,
        Vec<u32>,
        Requests<D, Note>,
        Second,
    >,
    D: Choice<Timer, Waker, Third>,
    R: Wait + Clone + Drop,
{
    let made: Option<Table<D, ScriptPoller, ScriptClock, R>> = table(rt, alloc);
    let Some(table) = made else {
        return Some(acts.len());
    };
    let mut desk = Desk {
        table,
        tokens: Vec::new(alloc),
        pings: Vec::new(alloc),
    };
    desk.play(acts)
}

// Its poller keeps eight waits.
fn table<D, R>(rt: &R, alloc: Global) -> Option<Table<D, ScriptPoller, ScriptClock, R>>
where
    D: EventDispatcher<ScriptPoller, ScriptClock, R>,
    R: Wait + Clone + Drop,
{
    let mut poller = ScriptPoller::new(alloc).ok()?;
    poller.keep_waits(8).ok()?;
    let clock = poller.clock().ok()?;
    let own = rt.clone().ok()?;
    Some(Table {
        rt: own,
        alloc,
        event_loop: EventLoop::try_new(rt, alloc, poller, clock).ok()?,
    })
}

type Held<R> = Sources<
    OneOf<
        Dispatcher<PingSource<R>, Teller>,
        OneOf<Dispatcher<Generic<ScriptIo>, Visitor>, Dispatcher<Timer, Waker>>,
    >,
    Vec<u32>,
    Note,
>;

// Says 9 at the end of a dispatch.
#[derive(Drop)]
pub struct Note;

impl<Q: Asking> IdleCallback<Vec<u32>, Q> for Note {
    ghost use Rattle.std.specs.Prelude.{◌≡◌};

    ghost runs = { λ _ _ q _ r. r ≡ q };

    fn run(self, said: &mut Vec<u32>, _requests: &mut Q) {
        let _failed = said.push(9);
    }
}

impl<R: Wait + Drop> Seen for Held<R> {
    fn interests(&mut self, interest: Interest) -> bool {
        match &mut self.held {
            OneOf::Other(OneOf::First(socket)) => {
                socket.as_source_mut().interest = interest;
                true
            }
            _ => false,
        }
    }

    fn keeps_its_socket(self) -> bool {
        let held = self.held;
        match held {
            OneOf::First(_ping) => false,
            OneOf::Other(rest) => match rest {
                OneOf::First(socket) => match socket.into_source_inner().unwrap() {
                    Ok(_) => false,
                    Err(source) => source.get_ref().number == 1,
                },
                OneOf::Other(_timer) => false,
            },
        }
    }
}

// The registration of these numbers, modulo how many there are.
fn registration(slot: u32, version: u32) -> RegistrationToken {
    RegistrationToken::new(slot % MOST_SLOTS as u32, version % VERSIONS as u32)
}

fn are_waits(noted: &[Option<Duration>], waits: &[u64]) -> bool {
    noted.len() == waits.len()
        && noted
            .iter()
            .zip(waits)
            .all(|(one, other)| *one == Some(Duration::from_millis(*other)))
}
