//! Sockets as futures.
use calloop::futures::{Context, Executor, Future, Poll, make_executor};
use calloop::{
    Adapter, Async, Dispatcher, Error, EventDispatcher, Here, LoopHold, LoopKeep, MioPoller, On,
    OneOf, Result, Sources, SystemClock, SystemLoop, There,
};
use mio::net::UnixStream;
use std::alloc::Global;
use std::io::Write;
use std::net::Net;
use std::sync::Wait;
use std::test::Fail;
use std::time::{Clock as MachineClock, Duration};

#[test]
fn a_future_reads_what_comes(rt: HostRuntime) -> std::result::Result<(), Fail> {
    let sum = sum::<Held<HostRuntime>, HostRuntime>(&rt, rt.alloc());
    assert!(rt; sum.is_ok_and(|sum| sum == 5));
    Ok(())
}

/// Adds up what the futures read.
#[derive(Drop)]
struct Adds;

impl On<Option<usize>, u64, ()> for Adds {
    fn on(&mut self, read: Option<usize>, sum: &mut u64) {
        *sum = sum.saturating_add(read.unwrap_or(0) as u64);
    }
}

type Socket<R> = Async<UnixStream, R>;

/// Gives how many bytes it read, if that succeeded.
#[derive(Drop)]
struct Reader<R: Wait + MachineClock + Clone + Drop> {
    io: Socket<R>,
}

impl<R: Wait + MachineClock + Clone + Drop> Future<R> for Reader<R> {
    type Output = Option<usize>;

    fn poll(&mut self, cx: &mut Context<'_, R>) -> Poll<Option<usize>> {
        let mut bytes = [0u8; 64];
        match self.io.poll_read(cx, &mut bytes) {
            Poll::Ready(read) => Poll::Ready(read.ok()),
            Poll::Pending => Poll::Pending,
        }
    }
}

type Held<R> = Sources<
    OneOf<Adapter<UnixStream, R>, Dispatcher<Executor<Reader<R>, R>, Adds>>,
    u64,
>;

type Machine<R> = MioPoller<SystemClock<R>>;

fn sum<D, R>(rt: &R, alloc: Global) -> Result<u64>
where
    D: EventDispatcher<Machine<R>, SystemClock<R>, R, Data = u64, Idle = ()>,
    D: LoopKeep<Adapter<UnixStream, R>, Machine<R>, SystemClock<R>, R, Here>,
    D: LoopHold<Executor<Reader<R>, R>, Adds, Machine<R>, SystemClock<R>, R, There<Here>>,
    R: Net + MachineClock + Wait + Clone + Drop,
{
    let mut event_loop: SystemLoop<D, R> = SystemLoop::system(rt, alloc)?;
    let (executor, scheduler) = make_executor(rt, alloc)?;
    event_loop.handle().insert_source(executor, Adds)?;
    let (stream, mut other) = UnixStream::pair(rt)?;

    let io = event_loop.handle().adapt_io(rt, alloc, stream)?;

    if scheduler.schedule(Reader { io }).is_err() {
        return Err(Error::OutOfMemory);
    }
    let mut sum = 0;
    event_loop.dispatch(rt, Some(Duration::ZERO), &mut sum)?;
    other.write_all(b"hello")?;
    for _ in 0..3 {
        event_loop.dispatch(rt, Some(Duration::from_millis(100)), &mut sum)?;
    }
    Ok(sum)
}
