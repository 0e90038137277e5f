//! A loop with one adapter, and a wait for its socket.
use super::desk::Silent;
use calloop::futures::{Context, Future, Poll};
use calloop::{
    Adapter, Async, Dispatcher, EventDispatcher, Here, Instant, LoopKeep, OneOf, Readiness,
    ScriptLoop, Sources, Timer,
};
use calloop_script::{ScriptAnswer, ScriptClock, ScriptEnd, ScriptEvents, ScriptIo, ScriptPoller};
use std::alloc::Global;
use std::os::fd::RawFd;
use std::sync::Wait;

/// What a loop with one adapter holds.
pub(super) type Held<R> = Sources<OneOf<Adapter<ScriptIo, R>, Dispatcher<Timer, Silent>>, ()>;

pub(super) type Adapted<D, R> = (ScriptLoop<D, R>, Async<ScriptIo, R>);

/// A loop with one adapter, in its first slot, of the socket of this number.
pub(super) fn new_adapted<D, R>(rt: &R, alloc: Global, number: RawFd) -> Option<Adapted<D, R>>
where
    D: EventDispatcher<ScriptPoller, ScriptClock, R, Data = ()>,
    D: LoopKeep<Adapter<ScriptIo, R>, ScriptPoller, ScriptClock, R, Here>,
    R: Wait + Clone + Drop,
{
    let mut event_loop: ScriptLoop<D, R> = ScriptLoop::with_script(rt, alloc).ok()?;
    let io = event_loop.handle().adapt_io(rt, alloc, ScriptIo { number });
    Some((event_loop, io.ok()?))
}

/// The adapter of the first slot, once its socket is registered and was found readable.
pub(super) fn look<D, R>(
    rt: &R,
    event_loop: &mut ScriptLoop<D, R>,
    alloc: Global,
    io: Async<ScriptIo, R>,
) -> Option<Async<ScriptIo, R>>
where
    D: EventDispatcher<ScriptPoller, ScriptClock, R, Data = ()>,
    R: Wait + Clone + Drop,
{
    answer(event_loop, alloc, 0, READABLE)?;
    let looks = Looks { io: Some(io) };
    let looked = event_loop.block_on(rt, alloc, looks, &mut (), |_data| {});
    looked.ok()??
}

pub(super) const READABLE: Readiness = Readiness {
    readable: true,
    writable: false,
    error: false,
};

/// The next wait finds this of the socket of this key.
pub(super) fn answer<D, R>(
    event_loop: &mut ScriptLoop<D, R>,
    alloc: Global,
    key: u64,
    found: Readiness,
) -> Option<()>
where
    D: EventDispatcher<ScriptPoller, ScriptClock, R>,
    R: Wait + Clone + Drop,
{
    let mut events = ScriptEvents::new(alloc);
    events.push(key, found).ok()?;
    let answer = ScriptAnswer {
        moment: Instant::from_millis(1),
        end: ScriptEnd::Events(events),
    };
    event_loop.handle().poller_mut().script(answer).ok()
}

/// Waits until its socket can be read, and gives it back.
#[derive(Drop)]
struct Looks<R: Wait + Drop> {
    io: Option<Async<ScriptIo, R>>,
}

impl<R: Wait + Clone + Drop> Future<R> for Looks<R> {
    type Output = Option<Async<ScriptIo, R>>;

    fn poll(&mut self, cx: &mut Context<'_, R>) -> Poll<Option<Async<ScriptIo, R>>> {
        let Some(io) = &mut self.io else {
            return Poll::Ready(None);
        };
        match io.readable().poll(cx) {
            Poll::Ready(_) => Poll::Ready(self.io.take()),
            Poll::Pending => Poll::Pending,
        }
    }
}
