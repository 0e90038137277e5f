//! Two ends of a connection, which are read and written by futures.
use calloop::futures::{Context, Executor, Future, Poll, Scheduler, make_executor};
use calloop::{
    Adapter, Async, Choice, Dispatcher, EventDispatcher, Here, LoopKeep, MioIo, MioPoller, On,
    OneOf, Sources, SystemClock, SystemLoop, There,
};
use mio::net::UnixStream;
use std::alloc::Global;
use std::io;
use std::net::Net;
use std::sync::Wait;
use std::time::{Clock as RuntimeClock, Duration};

const GREETING: &[u8] = b"Hello World!";

type Socket<R> = Async<MioIo, R>;

/// Writes what is left, and then reads as many bytes as it wants.
#[derive(Drop)]
struct Mover<R: Wait + RuntimeClock + Clone + Drop> {
    io: Socket<R>,
    left: Vec<u8>,
    heard: Vec<u8>,
    wanted: usize,
}

impl<R: Wait + RuntimeClock + Clone + Drop> Mover<R> {
    // A writer closes, and a reader flushes what it didn't write.
    fn end(&mut self, cx: &mut Context<'_, R>) -> Poll<bool> {
        if self.wanted == 0 {
            return match self.io.poll_close(cx) {
                Poll::Ready(closed) => Poll::Ready(closed.is_ok()),
                Poll::Pending => Poll::Pending,
            };
        }
        match self.io.poll_flush(cx) {
            Poll::Ready(flushed) => {
                Poll::Ready(flushed.is_ok() && self.heard.as_slice() == GREETING)
            }
            Poll::Pending => Poll::Pending,
        }
    }

    fn step(&mut self, cx: &mut Context<'_, R>) -> Poll<io::Result<usize>> {
        if self.left.is_empty() {
            read(&mut self.io, cx, &mut self.heard)
        } else {
            write(&mut self.io, cx, &mut self.left)
        }
    }
}

impl<R: Wait + RuntimeClock + Clone + Drop> Future<R> for Mover<R> {
    type Output = bool;

    /// Whether all was written, or what was read is the greeting.
    fn poll(&mut self, cx: &mut Context<'_, R>) -> Poll<bool> {
        for _ in 0..24u32 {
            if self.left.is_empty() && self.heard.len() >= self.wanted {
                return self.end(cx);
            }
            match self.step(cx) {
                Poll::Ready(Ok(0)) | Poll::Ready(Err(_)) => return Poll::Ready(false),
                Poll::Ready(Ok(_)) => {}
                Poll::Pending => return Poll::Pending,
            }
        }
        Poll::Ready(false)
    }
}

fn read<R: Wait + RuntimeClock + Clone + Drop>(
    io: &mut Socket<R>,
    cx: &mut Context<'_, R>,
    to: &mut Vec<u8>,
) -> Poll<io::Result<usize>> {
    let mut bytes = [0u8; 5];
    let read = io.poll_read(cx, &mut bytes);
    if let Poll::Ready(Ok(count)) = read {
        if to.extend_from_slice(&bytes[..count]).is_err() {
            return Poll::Ready(Err(io::Error::from(io::ErrorKind::OutOfMemory)));
        }
    }
    read
}

fn write<R: Wait + RuntimeClock + Clone + Drop>(
    io: &mut Socket<R>,
    cx: &mut Context<'_, R>,
    from: &mut Vec<u8>,
) -> Poll<io::Result<usize>> {
    let written = io.poll_write(cx, from);
    if let Poll::Ready(Ok(count)) = written {
        drop(from.drain(..count));
    }
    written
}

/// Counts the futures that moved all.
#[derive(Drop)]
struct Counts;

impl On<bool, u32, ()> for Counts {
    fn on(&mut self, moved: bool, count: &mut u32) {
        *count = count.saturating_add(moved as u32);
    }
}

type Held<R> = Sources<OneOf<Adapter<MioIo, R>, Dispatcher<Executor<Mover<R>, R>, Counts>>, u32>;

// Hears as many bytes.
fn reader<R: Wait + RuntimeClock + Clone + Drop>(io: Socket<R>, alloc: Global) -> Mover<R> {
    Mover {
        io,
        left: Vec::new(alloc),
        heard: Vec::new(alloc),
        wanted: GREETING.len(),
    }
}

// Says the greeting, if there is memory for it.
fn writer<R: Wait + RuntimeClock + Clone + Drop>(io: Socket<R>, alloc: Global) -> Mover<R> {
    let mut left = Vec::new(alloc);
    let _failed = left.extend_from_slice(GREETING);
    Mover {
        io,
        left,
        heard: Vec::new(alloc),
        wanted: 0,
    }
}

// How many futures moved all before something was written, and after it. What calls may fail, and leave the function, is in functions that own no loop.
fn greet<D, R>(rt: &R, alloc: Global) -> Option<(u32, u32)>
where
    D: EventDispatcher<MioPoller<SystemClock<R>>, SystemClock<R>, R, Data = u32>,
    D: Choice<Executor<Mover<R>, R>, Counts, There<Here>>,
    D: LoopKeep<Adapter<MioIo, R>, MioPoller<SystemClock<R>>, SystemClock<R>, R, Here>,
    R: Wait + Net + RuntimeClock + Clone + Drop,
{
    let mut event_loop: SystemLoop<D, R> = SystemLoop::system(rt, alloc).ok()?;
    greet_in(rt, alloc, &mut event_loop)
}

fn greet_in<D, R>(rt: &R, alloc: Global, event_loop: &mut SystemLoop<D, R>) -> Option<(u32, u32)>
where
    D: EventDispatcher<MioPoller<SystemClock<R>>, SystemClock<R>, R, Data = u32>,
    D: Choice<Executor<Mover<R>, R>, Counts, There<Here>>,
    D: LoopKeep<Adapter<MioIo, R>, MioPoller<SystemClock<R>>, SystemClock<R>, R, Here>,
    R: Wait + Net + RuntimeClock + Clone + Drop,
{
    let scheduler = executes(rt, alloc, event_loop)?;
    let (near, far) = adapts(rt, alloc, event_loop)?;
    let mut moved = 0;
    let _receipt = scheduler.schedule(reader(near, alloc));
    let went = dispatches(rt, event_loop, 2, &mut moved);
    let early = moved;
    let _receipt = scheduler.schedule(writer(far, alloc));
    let goes = went && dispatches(rt, event_loop, 1000, &mut moved);
    goes.then_some((early, moved))
}

fn executes<D, R>(
    rt: &R,
    alloc: Global,
    event_loop: &mut SystemLoop<D, R>,
) -> Option<Scheduler<Mover<R>, R>>
where
    D: EventDispatcher<MioPoller<SystemClock<R>>, SystemClock<R>, R, Data = u32>,
    D: Choice<Executor<Mover<R>, R>, Counts, There<Here>>,
    D: LoopKeep<Adapter<MioIo, R>, MioPoller<SystemClock<R>>, SystemClock<R>, R, Here>,
    R: Wait + Net + RuntimeClock + Clone + Drop,
{
    let (executor, scheduler) = make_executor(rt, alloc).ok()?;
    let held = D::hold(Dispatcher::new(executor, Counts));
    match event_loop.handle().register_dispatcher(held) {
        Ok(_token) => Some(scheduler),
        Err(_) => None,
    }
}

// The two ends of a connection.
fn adapts<D, R>(
    rt: &R,
    alloc: Global,
    event_loop: &mut SystemLoop<D, R>,
) -> Option<(Socket<R>, Socket<R>)>
where
    D: EventDispatcher<MioPoller<SystemClock<R>>, SystemClock<R>, R, Data = u32>,
    D: Choice<Executor<Mover<R>, R>, Counts, There<Here>>,
    D: LoopKeep<Adapter<MioIo, R>, MioPoller<SystemClock<R>>, SystemClock<R>, R, Here>,
    R: Wait + Net + RuntimeClock + Clone + Drop,
{
    let (near, far) = UnixStream::pair(rt).ok()?;
    let near = event_loop.handle().adapt_io(rt, alloc, MioIo::from(near));
    let far = event_loop.handle().adapt_io(rt, alloc, MioIo::from(far));
    match (near, far) {
        (Ok(near), Ok(far)) => Some((near, far)),
        _ => None,
    }
}

// Dispatches so often, or until both moved all: whether each went well.
fn dispatches<D, R>(rt: &R, event_loop: &mut SystemLoop<D, R>, times: u32, moved: &mut u32) -> bool
where
    D: EventDispatcher<MioPoller<SystemClock<R>>, SystemClock<R>, R, Data = u32>,
    R: Wait + Net + RuntimeClock + Clone + Drop,
{
    for _ in 0..times {
        if *moved == 2 {
            break;
        }
        let answer = event_loop.dispatch(rt, Some(Duration::from_millis(10)), moved);
        if answer.is_err() {
            return false;
        }
    }
    true
}

#[test]
fn what_one_future_writes_another_reads(rt: HostRuntime) {
    let moved = greet::<Held<HostRuntime>, HostRuntime>(&rt, rt.alloc());
    assert_eq!(rt; moved, Some((0, 2)));
}
