//! A loop of channels over a scripted poller, and what a test does at it.
use calloop::channel::{
    Channel, Event, SendError, Sender, SyncSender, TrySendError, make_channel, sync_channel,
};
use calloop::loop_logic::EventLoop;
use calloop::{Choice, Dispatcher, Error, EventDispatcher, Here, On, RegistrationToken, Sources};
use calloop_script::{ScriptClock, ScriptPoller};
use std::alloc::Global;
use std::ops::Range;
use std::sync::Wait;
use std::time::Duration;

/// What is said when the close is told.
pub const CLOSED: u32 = u32::MAX;

/// Says each message, and the close.
#[derive(Drop)]
pub struct Reader;

impl On<Event<u32>, Vec<u32>, ()> for Reader {
    fn on(&mut self, event: Event<u32>, said: &mut Vec<u32>) {
        let _failed = match event {
            Event::Msg(number) => said.push(number),
            Event::Closed => said.push(CLOSED),
        };
    }
}

/// What came of a try to send.
#[derive(Clone, Copy, PartialEq, Eq)]
pub enum Tried {
    Sent,
    Full(u32),
    Disconnected(u32),
}

/// What a test does, or looks for.
#[derive(Clone, Copy)]
pub enum Act<'a> {
    /// A channel is made, with a bound or without one.
    Make(Option<usize>),
    /// It comes into the loop.
    Insert,
    /// The last one of the senders sends these numbers.
    Send(&'a [u32]),
    /// It sends all numbers from the first up to the second.
    SendAll(u32, u32),
    /// It tries to send.
    Try(u32, Tried),
    /// It is cloned.
    Clone,
    /// It goes.
    Drop,
    /// The channel goes, which isn't in the loop.
    Leave,
    /// A dispatch succeeds in which these numbers are said.
    Says(Option<u64>, &'a [u32]),
    /// One in which all numbers from the first up to the second are said.
    SaysAll(Option<u64>, u32, u32),
    /// The poller was asked for these waits, in milliseconds, since this was asked before.
    Asked(&'a [Option<u64>]),
    Disable,
    Enable,
    /// The channel's token names it, or nothing.
    Names(bool),
}

/// A sender of either kind.
#[derive(Drop)]
pub enum End<R: Wait + Drop> {
    Unbounded(Sender<u32, R>),
    Bounded(SyncSender<u32, R>),
}

impl<R: Wait + Clone + Drop> End<R> {
    fn sends(&self, number: u32) -> bool {
        match self {
            End::Unbounded(sender) => sender.send(number).is_ok(),
            End::Bounded(sender) => sender.send(number).is_ok(),
        }
    }

    /// What came of a try to send, which never waits. Running out of memory is none.
    pub fn tries(&self, number: u32) -> Option<Tried> {
        match self {
            End::Unbounded(sender) => match sender.send(number) {
                Ok(_) => Some(Tried::Sent),
                Err(SendError::Disconnected(number)) => Some(Tried::Disconnected(number)),
                Err(SendError::OutOfMemory(_)) => None,
            },
            End::Bounded(sender) => Some(outcome(sender.try_send(number).err())),
        }
    }

    /// One more sender of the same channel.
    pub fn again(&self) -> Option<End<R>> {
        match self {
            End::Unbounded(sender) => Some(End::Unbounded(sender.clone().ok()?)),
            End::Bounded(sender) => Some(End::Bounded(sender.clone().ok()?)),
        }
    }
}

/// A loop over any sources that channels can be, with one channel and its senders.
#[derive(Drop)]
pub struct Desk<D, R>
where
    D: EventDispatcher<ScriptPoller, ScriptClock, R>,
    R: Wait + Drop,
{
    rt: R,
    alloc: Global,
    event_loop: EventLoop<D, ScriptPoller, ScriptClock, R>,
    said: Vec<u32>,
    senders: Vec<End<R>>,
    channel: Option<Channel<u32, R>>,
    token: Option<RegistrationToken>,
}

impl<D, R> Desk<D, R>
where
    D: EventDispatcher<ScriptPoller, ScriptClock, R, Data = Vec<u32>>,
    D: Choice<Channel<u32, R>, Reader, Here>,
    R: Wait + Clone + Drop,
{
    /// An empty loop, whose poller keeps eight waits.
    pub fn new(rt: &R, alloc: Global) -> Option<Desk<D, R>> {
        let mut poller = ScriptPoller::new(alloc).ok()?;
        poller.keep_waits(8).ok()?;
        let clock = poller.clock().ok()?;
        let event_loop = EventLoop::try_new(rt, alloc, poller, clock).ok()?;
        Some(Desk {
            rt: rt.clone().ok()?,
            alloc,
            event_loop,
            said: Vec::new(alloc),
            senders: Vec::new(alloc),
            channel: None,
            token: None,
        })
    }

    /// The place of the first act that isn't as it is wanted.
    pub fn play(&mut self, acts: &[Act<'_>]) -> Option<usize> {
        for (place, act) in acts.iter().enumerate() {
            if !self.does(*act) {
                return Some(place);
            }
        }
        None
    }

    fn does(&mut self, act: Act<'_>) -> bool {
        match act {
            Act::Make(bound) => self.make(bound).is_some(),
            Act::Insert => self.insert_made().is_some(),
            Act::Send(numbers) => numbers.iter().all(|number| self.sends(*number)),
            Act::SendAll(first, end) => (first..end).all(|number| self.sends(number)),
            Act::Try(number, wanted) => self.tries(number) == Some(wanted),
            Act::Clone => self.clone_sender().is_some(),
            Act::Drop => self.senders.pop().is_some(),
            Act::Leave => self.channel.take().is_some(),
            Act::Says(timeout, numbers) => {
                self.dispatch(timeout) && self.said.as_slice() == numbers
            }
            Act::SaysAll(timeout, first, end) => {
                self.dispatch(timeout) && are_all(&self.said, first..end)
            }
            Act::Asked(waits) => self.was_asked(waits),
            Act::Disable => self.disable() == Some(true),
            Act::Enable => self.enable() == Some(true),
            Act::Names(names) => self.disable() == Some(names),
        }
    }

    fn make(&mut self, bound: Option<usize>) -> Option<()> {
        let (sender, channel) = both_ends(&self.rt, self.alloc, bound)?;
        self.channel = Some(channel);
        self.senders.push(sender).ok()
    }

    fn insert_made(&mut self) -> Option<()> {
        let channel = self.channel.take()?;
        self.insert(channel)
    }

    /// The channel comes into the loop.
    pub fn insert(&mut self, channel: Channel<u32, R>) -> Option<()> {
        let held = D::hold(Dispatcher::new(channel, Reader));
        let token = self.event_loop.handle().register_dispatcher(held).ok()?;
        self.token = Some(token);
        Some(())
    }

    fn sends(&self, number: u32) -> bool {
        match self.senders.last() {
            Some(sender) => sender.sends(number),
            None => false,
        }
    }

    fn tries(&self, number: u32) -> Option<Tried> {
        self.senders.last()?.tries(number)
    }

    fn clone_sender(&mut self) -> Option<()> {
        let again = self.senders.last()?.again()?;
        self.senders.push(again).ok()
    }

    fn dispatch(&mut self, timeout: Option<u64>) -> bool {
        self.said.clear();
        self.goes_on(timeout)
    }

    /// Whether a dispatch succeeds. What is said in it is added to what was said before.
    pub fn goes_on(&mut self, timeout: Option<u64>) -> bool {
        let answer = self
            .event_loop
            .dispatch(&self.rt, time(timeout), &mut self.said);
        answer.is_ok()
    }

    /// What was said.
    pub fn said(&self) -> &[u32] {
        &self.said
    }

    fn was_asked(&mut self, waits: &[Option<u64>]) -> bool {
        let mut handle = self.event_loop.handle();
        let poller = handle.poller_mut();
        let same = are_waits(poller.waits(), waits);
        poller.keep_waits(8).is_ok() && same
    }

    // Whether the token names the channel, if nothing else goes wrong.
    fn disable(&mut self) -> Option<bool> {
        let token = self.token?;
        is_named(&self.event_loop.handle().disable(&token))
    }

    fn enable(&mut self) -> Option<bool> {
        let token = self.token?;
        is_named(&self.event_loop.handle().enable(&token))
    }
}

/// A new channel, with a bound or without one, and its first sender.
pub fn both_ends<R: Wait + Clone + Drop>(
    rt: &R,
    alloc: Global,
    bound: Option<usize>,
) -> Option<(End<R>, Channel<u32, R>)> {
    match bound {
        None => {
            let (sender, channel) = make_channel(rt, alloc).ok()?;
            Some((End::Unbounded(sender), channel))
        }
        Some(bound) => {
            let (sender, channel) = sync_channel(rt, alloc, bound).ok()?;
            Some((End::Bounded(sender), channel))
        }
    }
}

/// What a loop of channels holds.
pub type Held<R> = Sources<Dispatcher<Channel<u32, R>, Reader>, Vec<u32>>;

/// Plays at a new desk: the place of the first act that isn't as it is wanted, or one behind the last if no desk can be made. What names the types
/// of a loop makes one call and owns none: a call on a loop whose types are written out costs the prover as much as a whole test.
pub fn plays<R: Wait + Clone + Drop>(rt: &R, alloc: Global, acts: &[Act<'_>]) -> Option<usize> {
    plays_over::<Held<R>, R>(rt, alloc, acts)
}

fn plays_over<D, R>(rt: &R, alloc: Global, acts: &[Act<'_>]) -> Option<usize>
where
    D: EventDispatcher<ScriptPoller, ScriptClock, R, Data = Vec<u32>>,
    D: Choice<Channel<u32, R>, Reader, Here>,
    R: Wait + Clone + Drop,
{
    let made: Option<Desk<D, R>> = Desk::new(rt, alloc);
    match made {
        Some(mut desk) => desk.play(acts),
        None => Some(acts.len()),
    }
}

/// Whether these are all numbers of the range, in order.
pub fn are_all(numbers: &[u32], range: Range<u32>) -> bool {
    let mut wanted = range;
    for number in numbers {
        if wanted.next() != Some(*number) {
            return false;
        }
    }
    wanted.next().is_none()
}

fn outcome(refused: Option<TrySendError<u32>>) -> Tried {
    match refused {
        None => Tried::Sent,
        Some(TrySendError::Full(number)) => Tried::Full(number),
        Some(TrySendError::Disconnected(number)) => Tried::Disconnected(number),
    }
}

fn is_named(answer: &calloop::Result<()>) -> Option<bool> {
    match answer {
        Ok(()) => Some(true),
        Err(Error::InvalidToken) => Some(false),
        Err(_) => None,
    }
}

fn time(millis: Option<u64>) -> Option<Duration> {
    match millis {
        Some(millis) => Some(Duration::from_millis(millis)),
        None => None,
    }
}

fn are_waits(noted: &[Option<Duration>], waits: &[Option<u64>]) -> bool {
    noted.len() == waits.len()
        && noted
            .iter()
            .zip(waits)
            .all(|(one, other)| *one == time(*other))
}
