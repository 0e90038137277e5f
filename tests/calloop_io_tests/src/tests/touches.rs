//! How often a poll touches its socket.
use super::looks::Held;
use calloop::futures::{Context, Future, Poll};
use calloop::{Adapter, Async, EventDispatcher, Here, Requests, ScriptLoop};
use calloop_script::{ScriptClock, ScriptPoller};
use std::alloc::Global;
use std::io;
use std::io::{Read, Write};
use std::os::fd::{AsRawFd, RawFd};
use std::sync::Wait;

#[test]
fn each_poll_touches_its_socket_once(rt: HostRuntime) {
    let touched = touches::<Held<HostRuntime>, HostRuntime>(&rt, rt.alloc());
    assert_eq!(rt; touched, Some((1, 1, 2)));
}

/// A socket that is always ready, and counts how often it was read, written and flushed.
#[derive(Drop)]
struct Counting {
    reads: u32,
    writes: u32,
    flushes: u32,
}

impl AsRawFd for Counting {
    fn as_raw_fd(&self) -> RawFd {
        1
    }
}

impl Read for Counting {
    fn read(&mut self, _buf: &mut [u8]) -> io::Result<usize> {
        self.reads = self.reads.saturating_add(1);
        Ok(0)
    }
}

impl Write for Counting {
    fn write(&mut self, buf: &[u8]) -> io::Result<usize> {
        self.writes = self.writes.saturating_add(1);
        Ok(buf.len())
    }

    fn flush(&mut self) -> io::Result<()> {
        self.flushes = self.flushes.saturating_add(1);
        Ok(())
    }
}

/// Polls its socket in each way, and gives how often that was touched.
#[derive(Drop)]
struct Toucher<R: Wait + Drop> {
    io: Async<Counting, R>,
}

impl<R: Wait + Clone + Drop> Future<R> for Toucher<R> {
    type Output = Option<(u32, u32, u32)>;

    fn poll(&mut self, cx: &mut Context<'_, R>) -> Poll<Option<(u32, u32, u32)>> {
        let is_read = is_done(&self.io.poll_read(cx, &mut [0u8; 4]));
        let is_written = is_done(&self.io.poll_write(cx, b"four"));
        let is_flushed = is_done(&self.io.poll_flush(cx)) && is_done(&self.io.poll_close(cx));
        match &*self.io.get_mut() {
            Some(socket) if is_read && is_written && is_flushed => {
                Poll::Ready(Some((socket.reads, socket.writes, socket.flushes)))
            }
            _ => Poll::Ready(None),
        }
    }
}

fn is_done<T>(answer: &Poll<io::Result<T>>) -> bool {
    matches!(answer, Poll::Ready(Ok(_)))
}

// How often a socket is read, written and flushed by one poll of each kind, of which two flush.
fn touches<D, R>(rt: &R, alloc: Global) -> Option<(u32, u32, u32)>
where
    D: EventDispatcher<ScriptPoller, ScriptClock, R, Data = ()>,
    R: Wait + Clone + Drop,
{
    let mut event_loop: ScriptLoop<D, R> = ScriptLoop::with_script(rt, alloc).ok()?;
    let mut requests: Requests<Adapter<Counting, R>> = Requests::numbered_from(0, alloc);
    let socket = Counting {
        reads: 0,
        writes: 0,
        flushes: 0,
    };
    let adapted = requests.adapt::<Counting, R, Here>(rt, alloc, socket);
    let (_ticket, io) = adapted.ok()?;
    let touched = event_loop.block_on(rt, alloc, Toucher { io }, &mut (), |_data| {});
    touched.ok()??
}
