//! Descriptors of std, which would block if they weren't set otherwise as they are adapted.
use calloop::futures::{Context, Executor, Future, Poll, make_executor};
use calloop::{
    Adapter, Async, Choice, Dispatcher, EventDispatcher, Here, LoopKeep, MioPoller, On, OneOf,
    Sources, SystemClock, SystemLoop, There,
};
use std::alloc::Global;
use std::fs::Files;
use std::io::{self, PipeReader, Read, Write};
use std::net::Net;
use std::os::fd::AsRawFd;
use std::os::unix::net::UnixStream;
use std::process::Abort;
use std::sync::Wait;
use std::time::{Clock as RuntimeClock, Duration};

#[test]
fn a_socket_of_std_without_bytes_does_not_stop_the_loop(rt: HostRuntime) {
    let (near, far) = UnixStream::pair(&rt).expect(&rt, "a pair");
    let read = reads::<Held<UnixStream, HostRuntime>, UnixStream, UnixStream, HostRuntime>(
        &rt,
        rt.alloc(),
        near,
        far,
    );
    assert_eq!(rt; read, (0, 2));
}

#[test]
fn a_pipe_without_bytes_does_not_stop_the_loop(rt: HostRuntime) {
    let (near, far) = io::pipe(&rt).expect(&rt, "a pipe");
    let read = reads::<Held<PipeReader, HostRuntime>, PipeReader, io::PipeWriter, HostRuntime>(
        &rt,
        rt.alloc(),
        near,
        far,
    );
    assert_eq!(rt; read, (0, 2));
}

/// Gives how many bytes its first read gave.
#[derive(Drop)]
struct Reads<F: AsRawFd + Drop, R: Wait + Drop> {
    io: Async<F, R>,
}

impl<F: AsRawFd + Read + Drop, R: Wait + Clone + Drop> Future<R> for Reads<F, R> {
    type Output = usize;

    fn poll(&mut self, cx: &mut Context<'_, R>) -> Poll<usize> {
        let mut bytes = [0u8; 8];
        match self.io.poll_read(cx, &mut bytes) {
            Poll::Ready(read) => Poll::Ready(read.unwrap_or(0)),
            Poll::Pending => Poll::Pending,
        }
    }
}

/// Adds what futures gave.
#[derive(Drop)]
struct Adds;

impl On<usize, usize, ()> for Adds {
    fn on(&mut self, count: usize, sum: &mut usize) {
        *sum = sum.saturating_add(count);
    }
}

type Held<F, R> = Sources<OneOf<Adapter<F, R>, Dispatcher<Executor<Reads<F, R>, R>, Adds>>, usize>;

// How many bytes a future read of the one end before two were written to the other, and behind that.
fn reads<D, F, W, R>(rt: &R, alloc: Global, near: F, mut far: W) -> (usize, usize)
where
    D: EventDispatcher<MioPoller<SystemClock<R>>, SystemClock<R>, R, Data = usize>,
    D: Choice<Executor<Reads<F, R>, R>, Adds, There<Here>>,
    D: LoopKeep<Adapter<F, R>, MioPoller<SystemClock<R>>, SystemClock<R>, R, Here>,
    F: AsRawFd + Read + Drop,
    W: Write + Drop,
    R: Files + Wait + Net + RuntimeClock + Clone + Drop + Abort,
{
    let mut event_loop: SystemLoop<D, R> = SystemLoop::system(rt, alloc).expect(rt, "a loop");
    let io = match event_loop.handle().adapt_io(rt, alloc, near) {
        Ok(io) => Some(io),
        Err(_) => None,
    };
    let io = io.expect(rt, "an adapter");
    let (executor, scheduler) = make_executor(rt, alloc).expect(rt, "an executor");
    let held = D::hold(Dispatcher::new(executor, Adds));
    assert!(rt; event_loop.handle().register_dispatcher(held).is_ok());
    assert!(rt; scheduler.schedule(Reads { io }).is_ok());
    let mut sum = 0;
    let timeout = Some(Duration::from_millis(1));
    for _ in 0..3u32 {
        assert!(rt; event_loop.dispatch(rt, timeout, &mut sum).is_ok());
    }
    let early = sum;
    assert!(rt; far.write_all(b"ab").is_ok());
    for _ in 0..3u32 {
        assert!(rt; event_loop.dispatch(rt, timeout, &mut sum).is_ok());
    }
    (early, sum)
}
