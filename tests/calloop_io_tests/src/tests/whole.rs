//! Whole vectors that are written, and lines that are read, over sockets of the machine.
use calloop::futures::{Context, Executor, Future, Poll, Scheduler, make_executor};
use calloop::{
    Adapter, Async, Choice, Dispatcher, EventDispatcher, Here, LoopKeep, MioIo, MioPoller, On,
    OneOf, Sources, SystemClock, SystemLoop, There,
};
use mio::net::UnixStream;
use std::alloc::Global;
use std::io;
use std::io::Write;
use std::net::Net;
use std::sync::Wait;
use std::time::{Clock as RuntimeClock, Duration};

/// More than the socket takes at once.
const MANY: usize = 1_000_000;

/// What the lines are sent in, and the last has no line feed.
const PIECES: [&[u8]; 3] = [b"on", b"e\n\ntw", b"o\nthree"];

const LINES: [&[u8]; 4] = [b"one", b"", b"two", b"three"];

type Socket<R> = Async<MioIo, R>;

/// What a future moves.
#[derive(Drop)]
enum Mover<R: Wait + RuntimeClock + Clone + Drop> {
    /// Writes what is left, and counts its polls.
    Writes(Socket<R>, Vec<u8>, u32),
    /// Reads all to the end.
    Reads(Socket<R>, Vec<u8>),
    /// Reads all lines: how many were as they have to be, and the bytes behind them.
    ReadsLines(Socket<R>, usize, Vec<u8>),
}

/// What came of it.
#[derive(Drop)]
enum Done {
    /// All was written, in so many polls.
    Wrote(u32),
    Read(Vec<u8>),
    /// So many lines were as they have to be, and no other was there.
    ReadLines(usize),
    Failed,
}

impl<R: Wait + RuntimeClock + Clone + Drop> Mover<R> {
    // Whether there is more, if it needn't wait.
    fn step(&mut self, cx: &mut Context<'_, R>) -> Poll<io::Result<bool>> {
        match self {
            Mover::Writes(io, left, polls) => {
                *polls = polls.saturating_add(1);
                match io.poll_write_all(cx, left) {
                    Poll::Ready(Ok(())) => Poll::Ready(Ok(!left.is_empty())),
                    Poll::Ready(Err(cause)) => Poll::Ready(Err(cause)),
                    Poll::Pending => Poll::Pending,
                }
            }
            Mover::Reads(io, read) => match io.poll_read_more(cx, read) {
                Poll::Ready(Ok(count)) => Poll::Ready(Ok(count > 0)),
                Poll::Ready(Err(cause)) => Poll::Ready(Err(cause)),
                Poll::Pending => Poll::Pending,
            },
            Mover::ReadsLines(io, right, buffer) => match io.poll_line(cx, buffer) {
                Poll::Ready(Ok(Some(line))) => Poll::Ready(takes(&line, right)),
                Poll::Ready(Ok(None)) => Poll::Ready(Ok(false)),
                Poll::Ready(Err(cause)) => Poll::Ready(Err(cause)),
                Poll::Pending => Poll::Pending,
            },
        }
    }

    fn outcome(&mut self) -> Done {
        match self {
            Mover::Writes(_, _, polls) => Done::Wrote(*polls),
            Mover::Reads(_, read) => {
                let alloc = *read.allocator();
                Done::Read(std::mem::replace(read, Vec::new(alloc)))
            }
            Mover::ReadsLines(_, right, _) => Done::ReadLines(*right),
        }
    }
}

// One line more is as it has to be, or else it fails.
fn takes(line: &[u8], right: &mut usize) -> io::Result<bool> {
    match LINES.get(*right) {
        Some(wanted) if *wanted == line => {
            *right = right.saturating_add(1);
            Ok(true)
        }
        _ => Err(io::Error::from(io::ErrorKind::InvalidData)),
    }
}

impl<R: Wait + RuntimeClock + Clone + Drop> Future<R> for Mover<R> {
    type Output = Done;

    fn poll(&mut self, cx: &mut Context<'_, R>) -> Poll<Done> {
        for _ in 0..64u32 {
            match self.step(cx) {
                Poll::Ready(Ok(true)) => {}
                Poll::Ready(Ok(false)) => return Poll::Ready(self.outcome()),
                Poll::Ready(Err(_)) => return Poll::Ready(Done::Failed),
                Poll::Pending => return Poll::Pending,
            }
        }
        cx.waker().wake();
        Poll::Pending
    }
}

/// What all futures of a loop moved.
#[derive(Drop)]
struct Moved {
    polls: Option<u32>,
    read: Option<Vec<u8>>,
    lines: Option<usize>,
    failed: bool,
}

/// Keeps what a future moved.
#[derive(Drop)]
struct Keeps;

impl On<Done, Moved, ()> for Keeps {
    fn on(&mut self, done: Done, moved: &mut Moved) {
        match done {
            Done::Wrote(polls) => moved.polls = Some(polls),
            Done::Read(read) => moved.read = Some(read),
            Done::ReadLines(right) => moved.lines = Some(right),
            Done::Failed => moved.failed = true,
        }
    }
}

type Held<R> = Sources<OneOf<Adapter<MioIo, R>, Dispatcher<Executor<Mover<R>, R>, Keeps>>, Moved>;

fn executes<D, R>(
    rt: &R,
    alloc: Global,
    event_loop: &mut SystemLoop<D, R>,
) -> Option<Scheduler<Mover<R>, R>>
where
    D: EventDispatcher<MioPoller<SystemClock<R>>, SystemClock<R>, R, Data = Moved>,
    D: Choice<Executor<Mover<R>, R>, Keeps, There<Here>>,
    D: LoopKeep<Adapter<MioIo, R>, MioPoller<SystemClock<R>>, SystemClock<R>, R, Here>,
    R: Wait + Net + RuntimeClock + Clone + Drop,
{
    let (executor, scheduler) = make_executor(rt, alloc).ok()?;
    let held = D::hold(Dispatcher::new(executor, Keeps));
    match event_loop.handle().register_dispatcher(held) {
        Ok(_token) => Some(scheduler),
        Err(_) => None,
    }
}

fn adapt<D, R>(
    rt: &R,
    alloc: Global,
    event_loop: &mut SystemLoop<D, R>,
    io: UnixStream,
) -> Option<Socket<R>>
where
    D: EventDispatcher<MioPoller<SystemClock<R>>, SystemClock<R>, R, Data = Moved>,
    D: Choice<Executor<Mover<R>, R>, Keeps, There<Here>>,
    D: LoopKeep<Adapter<MioIo, R>, MioPoller<SystemClock<R>>, SystemClock<R>, R, Here>,
    R: Wait + Net + RuntimeClock + Clone + Drop,
{
    match event_loop.handle().adapt_io(rt, alloc, MioIo::from(io)) {
        Ok(io) => Some(io),
        Err(_) => None,
    }
}

// Dispatches so often: whether each went well.
fn dispatches<D, R>(
    rt: &R,
    event_loop: &mut SystemLoop<D, R>,
    times: u32,
    moved: &mut Moved,
) -> bool
where
    D: EventDispatcher<MioPoller<SystemClock<R>>, SystemClock<R>, R, Data = Moved>,
    R: Wait + Net + RuntimeClock + Clone + Drop,
{
    for _ in 0..times {
        let answer = event_loop.dispatch(rt, Some(Duration::from_millis(1)), moved);
        if answer.is_err() {
            return false;
        }
    }
    !moved.failed
}

fn nothing() -> Moved {
    Moved {
        polls: None,
        read: None,
        lines: None,
        failed: false,
    }
}

// Has a loop write many bytes, which nobody reads at first, and then read them: the polls of the writer, and what was read.
fn writes<D, R>(rt: &R, alloc: Global) -> Option<(u32, Vec<u8>)>
where
    D: EventDispatcher<MioPoller<SystemClock<R>>, SystemClock<R>, R, Data = Moved>,
    D: Choice<Executor<Mover<R>, R>, Keeps, There<Here>>,
    D: LoopKeep<Adapter<MioIo, R>, MioPoller<SystemClock<R>>, SystemClock<R>, R, Here>,
    R: Wait + Net + RuntimeClock + Clone + Drop,
{
    let mut event_loop: SystemLoop<D, R> = SystemLoop::system(rt, alloc).ok()?;
    let scheduler = executes(rt, alloc, &mut event_loop)?;
    let (near, far) = UnixStream::pair(rt).ok()?;
    let near = adapt(rt, alloc, &mut event_loop, near)?;
    let far = adapt(rt, alloc, &mut event_loop, far)?;
    let mut left = Vec::new(alloc);
    for at in 0..MANY {
        left.push((at % 251) as u8).ok()?;
    }
    let mut moved = nothing();
    let _receipt = scheduler.schedule(Mover::Writes(near, left, 0));
    let went = dispatches(rt, &mut event_loop, 3, &mut moved);
    let early = moved.polls.is_some();
    let _receipt = scheduler.schedule(Mover::Reads(far, Vec::new(alloc)));
    let goes = went && !early && dispatches(rt, &mut event_loop, 400, &mut moved);
    match (goes, moved.polls, moved.read.take()) {
        (true, Some(polls), Some(read)) => Some((polls, read)),
        _ => None,
    }
}

// Has a loop read the lines, which come in pieces: how many were right before the end of the stream, and at it.
fn reads_lines<D, R>(rt: &R, alloc: Global) -> Option<(Option<usize>, Option<usize>)>
where
    D: EventDispatcher<MioPoller<SystemClock<R>>, SystemClock<R>, R, Data = Moved>,
    D: Choice<Executor<Mover<R>, R>, Keeps, There<Here>>,
    D: LoopKeep<Adapter<MioIo, R>, MioPoller<SystemClock<R>>, SystemClock<R>, R, Here>,
    R: Wait + Net + RuntimeClock + Clone + Drop,
{
    let mut event_loop: SystemLoop<D, R> = SystemLoop::system(rt, alloc).ok()?;
    let scheduler = executes(rt, alloc, &mut event_loop)?;
    let (near, mut far) = UnixStream::pair(rt).ok()?;
    let near = adapt(rt, alloc, &mut event_loop, near)?;
    let mut moved = nothing();
    let _receipt = scheduler.schedule(Mover::ReadsLines(near, 0, Vec::new(alloc)));
    let mut went = true;
    for piece in &PIECES {
        went &= far.write_all(piece).is_ok() && dispatches(rt, &mut event_loop, 3, &mut moved);
    }
    let early = moved.lines;
    drop(far);
    let goes = went && dispatches(rt, &mut event_loop, 5, &mut moved);
    goes.then_some((early, moved.lines))
}

#[test]
fn a_vector_that_the_socket_cannot_take_at_once_is_written_by_several_polls(rt: HostRuntime) {
    let (polls, read) = writes::<Held<HostRuntime>, HostRuntime>(&rt, rt.alloc()).expect(
        &rt, "moved",
    );
    assert!(rt; polls > 1);
    assert_eq!(rt; read.len(), MANY);
    for (at, byte) in read.iter().enumerate() {
        assert_eq!(rt; *byte as usize, at % 251);
    }
}

#[test]
fn lines_that_come_in_pieces_are_read_whole_and_the_last_needs_no_feed(rt: HostRuntime) {
    let lines = reads_lines::<Held<HostRuntime>, HostRuntime>(&rt, rt.alloc());
    assert_eq!(rt; lines, Some((None, Some(LINES.len()))));
}
