//! A scripted loop with one adapter, and an executor whose futures look at its socket.
use super::looks::answer;
use calloop::futures::{Context, Executor, Future, Poll, Scheduler, make_executor};
use calloop::{
    Adapter, Async, Choice, Dispatcher, Error, EventDispatcher, Here, Instant, LoopKeep, On, OneOf,
    Readiness, RegistrationToken, ScriptLoop, Sources, There, TimeoutAction, Timer,
};
use calloop_script::{ScriptCall, ScriptClock, ScriptIo, ScriptKind, ScriptPoller};
use std::alloc::Global;
use std::sync::Wait;
use std::time::Duration;
use std::{io, mem};

/// What a test does, or looks for.
#[derive(Clone, Copy)]
pub enum Act<'a> {
    /// Socket 1 is adapted.
    Adapt,
    /// A future is scheduled that waits so often until the socket can be read. Its answers are said, and the adapter comes back.
    Look(usize),
    /// One that waits until it can be written.
    LookToWrite(usize),
    /// One that polls it in this way, and waits for so many answers.
    Poll(How, usize),
    /// One that polls it in the first way, in the second one once it had to wait, and waits for one answer.
    PollThen(How, How),
    /// The next wait answers key 0: readable, or else writable.
    Answer(bool),
    /// It answers this key: readable.
    AnswerKey(u64),
    /// The poller's next call of this kind fails.
    Fail(ScriptKind),
    /// A dispatch succeeds in which this is said.
    Dispatch(&'a [Word]),
    /// The poller has had these calls.
    Calls(&'a [ScriptCall]),
    /// Whether the loop was woken since its last wait.
    IsWoken(bool),
    /// `enable` and the like refuse the first slot.
    IsNamedByNoCall,
    Drop,
    /// The socket goes out of its adapter, which stays.
    Empty,
    /// The socket is handed back.
    IntoInner,
    /// The poller fails to delete it, and the adapter is handed back.
    KeptByFault,
    /// The socket is taken out first, so that none can be handed back. The adapter leaves.
    TakenOut,
    /// A timer that is inserted takes this slot.
    NextSlot(u32),
}

/// How a future polls the socket.
#[derive(Clone, Copy, Debug, PartialEq, Eq)]
pub enum How {
    Readable,
    Writable,
    Read,
    Write,
    Flush,
}

/// What a wait is answered.
#[derive(Clone, Copy, Debug, PartialEq, Eq)]
pub enum Word {
    Ready,
    /// The registration was refused, by the poller's fault.
    Refused,
    /// No socket is there.
    Missing,
    /// Anything else.
    Other,
}

/// What was said, and the adapter that came back.
#[derive(Drop)]
pub struct Told<R: Wait + Drop> {
    said: Vec<Word>,
    io: Option<Async<ScriptIo, R>>,
}

/// Polls the socket in this way until it has so many answers.
#[derive(Drop)]
pub struct Looker<R: Wait + Drop> {
    told: Told<R>,
    times: usize,
    how: How,
    then: How,
}

// One poll of the socket.
fn poll_once<R: Wait + Clone + Drop>(
    how: How,
    io: &mut Async<ScriptIo, R>,
    cx: &mut Context<'_, R>,
) -> Poll<Word> {
    match how {
        How::Readable => of_wait(io.readable().poll(cx)),
        How::Writable => of_wait(io.writable().poll(cx)),
        How::Read => of_bytes(io.poll_read(cx, &mut [0u8; 4])),
        How::Write => of_bytes(io.poll_write(cx, b"four")),
        How::Flush => of_flush(io.poll_flush(cx)),
    }
}

fn of_wait(answer: Poll<calloop::Result<()>>) -> Poll<Word> {
    match answer {
        Poll::Ready(Ok(())) => Poll::Ready(Word::Ready),
        Poll::Ready(Err(Error::IoError(_))) => Poll::Ready(Word::Refused),
        Poll::Ready(Err(_)) => Poll::Ready(Word::Other),
        Poll::Pending => Poll::Pending,
    }
}

fn of_bytes(answer: Poll<io::Result<usize>>) -> Poll<Word> {
    match answer {
        Poll::Ready(Ok(_)) => Poll::Ready(Word::Ready),
        Poll::Ready(Err(cause)) => Poll::Ready(of_cause(&cause)),
        Poll::Pending => Poll::Pending,
    }
}

fn of_flush(answer: Poll<io::Result<()>>) -> Poll<Word> {
    match answer {
        Poll::Ready(Ok(())) => Poll::Ready(Word::Ready),
        Poll::Ready(Err(cause)) => Poll::Ready(of_cause(&cause)),
        Poll::Pending => Poll::Pending,
    }
}

fn of_cause(cause: &io::Error) -> Word {
    match cause.kind() {
        io::ErrorKind::Other => Word::Refused,
        io::ErrorKind::NotFound => Word::Missing,
        _ => Word::Other,
    }
}

impl<R: Wait + Clone + Drop> Future<R> for Looker<R> {
    type Output = Told<R>;

    fn poll(&mut self, cx: &mut Context<'_, R>) -> Poll<Told<R>> {
        for _ in self.told.said.len()..self.times {
            let Some(io) = &mut self.told.io else {
                break;
            };
            let word = match poll_once(self.how, io, cx) {
                Poll::Ready(word) => word,
                Poll::Pending => {
                    self.how = self.then;
                    return Poll::Pending;
                }
            };
            let _failed = self.told.said.push(word);
        }
        let alloc = *self.told.said.allocator();
        Poll::Ready(Told {
            said: mem::replace(&mut self.told.said, Vec::new(alloc)),
            io: self.told.io.take(),
        })
    }
}

/// Keeps what a future gives.
#[derive(Drop)]
pub struct Keeps;

impl<R: Wait + Drop> On<Told<R>, Told<R>, ()> for Keeps {
    fn on(&mut self, given: Told<R>, told: &mut Told<R>) {
        *told = given;
    }
}

/// Says nothing.
#[derive(Drop)]
pub struct Silent;

impl<X> On<Instant, X, TimeoutAction> for Silent {
    fn on(&mut self, _deadline: Instant, _data: &mut X) -> TimeoutAction {
        TimeoutAction::Drop
    }
}

/// What a loop of these tests holds.
type Held<R> = Sources<
    OneOf<
        Adapter<ScriptIo, R>,
        OneOf<Dispatcher<Executor<Looker<R>, R>, Keeps>, Dispatcher<Timer, Silent>>,
    >,
    Told<R>,
>;

#[derive(Drop)]
struct Desk<D, R>
where
    D: EventDispatcher<ScriptPoller, ScriptClock, R>,
    R: Wait + Drop,
{
    rt: R,
    alloc: Global,
    event_loop: ScriptLoop<D, R>,
    scheduler: Scheduler<Looker<R>, R>,
    told: Told<R>,
}

impl<D, R> Desk<D, R>
where
    D: EventDispatcher<ScriptPoller, ScriptClock, R, Data = Told<R>>,
    D: Choice<Executor<Looker<R>, R>, Keeps, There<Here>>,
    D: Choice<Timer, Silent, There<There<Here>>>,
    D: LoopKeep<Adapter<ScriptIo, R>, ScriptPoller, ScriptClock, R, Here>,
    R: Wait + Clone + Drop,
{
    fn new(rt: &R, alloc: Global) -> Option<Desk<D, R>> {
        let event_loop: ScriptLoop<D, R> = ScriptLoop::with_script(rt, alloc).ok()?;
        let (executor, scheduler) = make_executor(rt, alloc).ok()?;
        let mut desk = Desk {
            rt: rt.clone().ok()?,
            alloc,
            event_loop,
            scheduler,
            told: Told {
                said: Vec::new(alloc),
                io: None,
            },
        };
        // The adapter comes first, so that it has the first slot.
        desk.adapt()?;
        let held = D::hold(Dispatcher::new(executor, Keeps));
        desk.event_loop.handle().register_dispatcher(held).ok()?;
        Some(desk)
    }

    fn adapt(&mut self) -> Option<()> {
        let socket = ScriptIo { number: 1 };
        let made = self
            .event_loop
            .handle()
            .adapt_io(&self.rt, self.alloc, socket)
            .ok()?;
        self.told.io = Some(made);
        Some(())
    }

    /// The place of the first act that isn't as it is wanted.
    fn play(&mut self, acts: &[Act<'_>]) -> Option<usize> {
        for (place, act) in acts.iter().enumerate() {
            if self.does(*act).is_none() {
                return Some(place);
            }
        }
        None
    }

    fn does(&mut self, act: Act<'_>) -> Option<()> {
        match act {
            Act::Adapt => so(self.told.io.is_some()),
            Act::Look(times) => self.look(times, How::Readable, How::Readable),
            Act::LookToWrite(times) => self.look(times, How::Writable, How::Writable),
            Act::Poll(how, times) => self.look(times, how, how),
            Act::PollThen(how, then) => self.look(1, how, then),
            Act::Answer(readable) => self.answer(0, readable),
            Act::AnswerKey(key) => self.answer(key, true),
            Act::Fail(kind) => {
                self.event_loop.handle().poller_mut().fail(kind);
                Some(())
            }
            Act::Dispatch(said) => self.dispatch(said),
            Act::Calls(calls) => { so(self.event_loop.handle().poller_mut().calls() == calls) }
            Act::IsWoken(is_woken) => {
                so(self.event_loop.handle().poller_mut().is_woken() == is_woken)
            }
            Act::IsNamedByNoCall => self.is_named_by_no_call(),
            Act::Drop => so(self.told.io.take().is_some()),
            Act::Empty => self.empty(),
            Act::IntoInner => self.into_inner(),
            Act::KeptByFault => self.kept_by_fault(),
            Act::TakenOut => self.taken_out(),
            Act::NextSlot(slot) => self.next_slot(slot),
        }
    }

    fn look(&mut self, times: usize, how: How, then: How) -> Option<()> {
        let told = Told {
            said: Vec::new(self.alloc),
            io: self.told.io.take(),
        };
        let looker = Looker {
            told,
            times,
            how,
            then,
        };
        self.scheduler.schedule(looker).ok()?;
        Some(())
    }

    fn answer(&mut self, key: u64, readable: bool) -> Option<()> {
        let found = Readiness {
            readable,
            writable: !readable,
            error: false,
        };
        answer(&mut self.event_loop, self.alloc, key, found)
    }

    fn dispatch(&mut self, wanted: &[Word]) -> Option<()> {
        self.told.said.clear();
        let answer = self
            .event_loop
            .dispatch(&self.rt, Some(Duration::from_millis(100)), &mut self.told);
        so(answer.is_ok() && self.told.said.as_slice() == wanted)
    }

    fn is_named_by_no_call(&mut self) -> Option<()> {
        let token = RegistrationToken::new(0, 0);
        let mut handle = self.event_loop.handle();
        so(is_invalid(handle.enable(&token)))?;
        so(is_invalid(handle.update(&token)))?;
        so(is_invalid(handle.disable(&token)))?;
        so(handle.remove(token).is_none())?;
        so(handle.dispatcher(&token).is_err())
    }

    fn into_inner(&mut self) -> Option<()> {
        let io = self.told.io.take()?;
        match self.event_loop.handle().into_inner(io) {
            Ok(socket) => so(socket.number == 1),
            Err(_) => None,
        }
    }

    fn kept_by_fault(&mut self) -> Option<()> {
        let io = self.told.io.take()?;
        self.event_loop
            .handle()
            .poller_mut()
            .fail(ScriptKind::Delete);
        match self.event_loop.handle().into_inner(io) {
            Ok(_) => None,
            Err(refused) => {
                self.told.io = Some(refused.inserted);
                so(matches!(refused.error, Error::IoError(_)))
            }
        }
    }

    fn empty(&mut self) -> Option<()> {
        let io = self.told.io.as_mut()?;
        let socket = io.get_mut().take()?;
        so(socket.number == 1)
    }

    fn taken_out(&mut self) -> Option<()> {
        self.empty()?;
        let io = self.told.io.take()?;
        match self.event_loop.handle().into_inner(io) {
            Ok(_) => None,
            Err(refused) => so(matches!(refused.error, Error::InvalidToken)),
        }
    }

    fn next_slot(&mut self, slot: u32) -> Option<()> {
        let timer = Timer::from_deadline(Instant::from_millis(1_000_000));
        let held = D::hold(Dispatcher::new(timer, Silent));
        let token = self.event_loop.handle().register_dispatcher(held).ok()?;
        so(token.slot() == slot)
    }
}

fn is_invalid(answer: calloop::Result<()>) -> bool {
    matches!(answer, Err(Error::InvalidToken))
}

fn so(is: bool) -> Option<()> {
    if is { Some(()) } else { None }
}

/// Plays at a new desk: the place of the first act that isn't as it is wanted, or one behind the last if no desk can be made. This alone knows of
/// which types it is, and calls nothing else: a call on a loop whose types are written out costs the prover as much as a whole test.
pub fn plays<R: Wait + Clone + Drop>(rt: &R, alloc: Global, acts: &[Act<'_>]) -> Option<usize> {
    plays_over::<Held<R>, R>(rt, alloc, acts)
}

fn plays_over<D, R>(rt: &R, alloc: Global, acts: &[Act<'_>]) -> Option<usize>
where
    D: EventDispatcher<ScriptPoller, ScriptClock, R, Data = Told<R>>,
    D: Choice<Executor<Looker<R>, R>, Keeps, There<Here>>,
    D: Choice<Timer, Silent, There<There<Here>>>,
    D: LoopKeep<Adapter<ScriptIo, R>, ScriptPoller, ScriptClock, R, Here>,
    R: Wait + Clone + Drop,
{
    let made: Option<Desk<D, R>> = Desk::new(rt, alloc);
    match made {
        Some(mut desk) => desk.play(acts),
        None => Some(acts.len()),
    }
}
