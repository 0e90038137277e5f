//! A peer that closes, and one that resets.
use calloop::futures::{Context, Executor, Future, Poll, make_executor};
use calloop::{
    Adapter, Async, Choice, Dispatcher, EventDispatcher, Here, LoopKeep, MioIo, MioPoller, On,
    OneOf, Sources, SystemClock, SystemLoop, There,
};
use mio::net::UnixStream;
use std::alloc::Global;
use std::io;
use std::io::Write;
use std::net::Net;
use std::sync::Wait;
use std::time::{Clock as RuntimeClock, Duration};

/// How reading ended.
#[derive(Clone, Copy, Debug, PartialEq, Eq)]
enum End {
    Closed,
    Reset,
    /// Something was read, or another error came.
    Other,
}

/// Reads once.
#[derive(Drop)]
struct Reader<R: Wait + RuntimeClock + Clone + Drop> {
    io: Async<MioIo, R>,
}

impl<R: Wait + RuntimeClock + Clone + Drop> Future<R> for Reader<R> {
    type Output = End;

    fn poll(&mut self, cx: &mut Context<'_, R>) -> Poll<End> {
        let mut buffer = [0u8; 8];
        match self.io.poll_read(cx, &mut buffer) {
            Poll::Ready(Ok(0)) => Poll::Ready(End::Closed),
            Poll::Ready(Err(cause)) if cause.kind() == io::ErrorKind::ConnectionReset => {
                Poll::Ready(End::Reset)
            }
            Poll::Ready(_) => Poll::Ready(End::Other),
            Poll::Pending => Poll::Pending,
        }
    }
}

/// Keeps how it ended.
#[derive(Drop)]
struct Keeps;

impl On<End, Option<End>, ()> for Keeps {
    fn on(&mut self, end: End, ended: &mut Option<End>) {
        *ended = Some(end);
    }
}

type Held<R> = Sources<
    OneOf<Adapter<MioIo, R>, Dispatcher<Executor<Reader<R>, R>, Keeps>>,
    Option<End>,
>;

// How reading ended before the peer was gone, and how after it. It was sent this, and read nothing. What calls may fail, and leave the function, is in
// functions that own no loop: each such way out drops what is owned, which the prover has to follow.
fn ends<D, R>(rt: &R, alloc: Global, sent: &[u8]) -> Option<(Option<End>, Option<End>)>
where
    D: EventDispatcher<MioPoller<SystemClock<R>>, SystemClock<R>, R, Data = Option<End>>,
    D: Choice<Executor<Reader<R>, R>, Keeps, There<Here>>,
    D: LoopKeep<Adapter<MioIo, R>, MioPoller<SystemClock<R>>, SystemClock<R>, R, Here>,
    R: Wait + Net + RuntimeClock + Clone + Drop,
{
    let mut event_loop: SystemLoop<D, R> = SystemLoop::system(rt, alloc).ok()?;
    ends_in(rt, alloc, &mut event_loop, sent)
}

fn ends_in<D, R>(
    rt: &R,
    alloc: Global,
    event_loop: &mut SystemLoop<D, R>,
    sent: &[u8],
) -> Option<(Option<End>, Option<End>)>
where
    D: EventDispatcher<MioPoller<SystemClock<R>>, SystemClock<R>, R, Data = Option<End>>,
    D: Choice<Executor<Reader<R>, R>, Keeps, There<Here>>,
    D: LoopKeep<Adapter<MioIo, R>, MioPoller<SystemClock<R>>, SystemClock<R>, R, Here>,
    R: Wait + Net + RuntimeClock + Clone + Drop,
{
    let far = begins(rt, alloc, event_loop, sent)?;
    let mut ended = None;
    let went = dispatches(rt, event_loop, 2, &mut ended);
    let early = ended;
    drop(far);
    let goes = went && dispatches(rt, event_loop, 1000, &mut ended);
    goes.then_some((early, ended))
}

// Has the loop read one end of a connection, and hands the other out.
fn begins<D, R>(
    rt: &R,
    alloc: Global,
    event_loop: &mut SystemLoop<D, R>,
    sent: &[u8],
) -> Option<UnixStream>
where
    D: EventDispatcher<MioPoller<SystemClock<R>>, SystemClock<R>, R, Data = Option<End>>,
    D: Choice<Executor<Reader<R>, R>, Keeps, There<Here>>,
    D: LoopKeep<Adapter<MioIo, R>, MioPoller<SystemClock<R>>, SystemClock<R>, R, Here>,
    R: Wait + Net + RuntimeClock + Clone + Drop,
{
    let (mut near, far) = UnixStream::pair(rt).ok()?;
    if near.write_all(sent).is_ok() && reads(rt, alloc, event_loop, MioIo::from(near)) {
        Some(far)
    } else {
        None
    }
}

// Whether a future that reads it comes into the loop.
fn reads<D, R>(rt: &R, alloc: Global, event_loop: &mut SystemLoop<D, R>, near: MioIo) -> bool
where
    D: EventDispatcher<MioPoller<SystemClock<R>>, SystemClock<R>, R, Data = Option<End>>,
    D: Choice<Executor<Reader<R>, R>, Keeps, There<Here>>,
    D: LoopKeep<Adapter<MioIo, R>, MioPoller<SystemClock<R>>, SystemClock<R>, R, Here>,
    R: Wait + Net + RuntimeClock + Clone + Drop,
{
    let Ok(io) = event_loop.handle().adapt_io(rt, alloc, near) else {
        return false;
    };
    let Ok((executor, scheduler)) = make_executor(rt, alloc) else {
        return false;
    };
    let is_scheduled = scheduler.schedule(Reader { io }).is_ok();
    let held = D::hold(Dispatcher::new(executor, Keeps));
    is_scheduled && event_loop.handle().register_dispatcher(held).is_ok()
}

// Dispatches so often, or until reading ended: whether each went well.
fn dispatches<D, R>(
    rt: &R,
    event_loop: &mut SystemLoop<D, R>,
    times: u32,
    ended: &mut Option<End>,
) -> bool
where
    D: EventDispatcher<MioPoller<SystemClock<R>>, SystemClock<R>, R, Data = Option<End>>,
    R: Wait + Net + RuntimeClock + Clone + Drop,
{
    for _ in 0..times {
        if ended.is_some() {
            break;
        }
        let answer = event_loop.dispatch(rt, Some(Duration::from_millis(10)), ended);
        if answer.is_err() {
            return false;
        }
    }
    true
}

// This alone knows of which types the loop is.
fn ends_with<R: Wait + Net + RuntimeClock + Clone + Drop>(
    rt: &R,
    alloc: Global,
    sent: &[u8],
) -> Option<(Option<End>, Option<End>)> {
    ends::<Held<R>, R>(rt, alloc, sent)
}

#[test]
fn a_peer_that_closes_ends_a_read(rt: HostRuntime) {
    let ended = ends_with(&rt, rt.alloc(), b"");
    assert_eq!(rt; ended, Some((None, Some(End::Closed))));
}

#[test]
fn a_peer_that_resets_is_an_error_of_a_read(rt: HostRuntime) {
    let ended = ends_with(&rt, rt.alloc(), b"unread");
    assert_eq!(rt; ended, Some((None, Some(End::Reset))));
}
