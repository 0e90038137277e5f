//! Two adapters in one loop.
use super::TO_READ;
use calloop::futures::{Context, Executor, Future, Poll, make_executor};
use calloop::{
    Adapter, Async, Choice, Dispatcher, EventDispatcher, Here, LoopKeep, On, OneOf, ScriptLoop,
    Sources, There,
};
use calloop_script::{ScriptCall, ScriptClock, ScriptIo, ScriptPoller};
use std::alloc::Global;
use std::sync::Wait;
use std::time::Duration;

#[test]
fn two_sockets_that_are_polled_are_both_registered_in_the_order_of_their_slots(rt: HostRuntime) {
    let added = adds_both::<Held<HostRuntime>, HostRuntime>(&rt, rt.alloc());
    assert_eq!(rt; added, Some(true));
}

/// Waits until its socket can be read.
#[derive(Drop)]
struct Waits<R: Wait + Drop> {
    io: Async<ScriptIo, R>,
}

impl<R: Wait + Clone + Drop> Future<R> for Waits<R> {
    type Output = bool;

    fn poll(&mut self, cx: &mut Context<'_, R>) -> Poll<bool> {
        match self.io.readable().poll(cx) {
            Poll::Ready(answer) => Poll::Ready(answer.is_ok()),
            Poll::Pending => Poll::Pending,
        }
    }
}

/// Counts the futures that are done.
#[derive(Drop)]
struct Counts;

impl On<bool, u32, ()> for Counts {
    fn on(&mut self, _is_ready: bool, count: &mut u32) {
        *count = count.saturating_add(1);
    }
}

type Held<R> = Sources<OneOf<Adapter<ScriptIo, R>, Dispatcher<Executor<Waits<R>, R>, Counts>>, u32>;

// Whether both of two sockets are added in one dispatch, the first slot's first, though they are polled in the other order.
fn adds_both<D, R>(rt: &R, alloc: Global) -> Option<bool>
where
    D: EventDispatcher<ScriptPoller, ScriptClock, R, Data = u32>,
    D: Choice<Executor<Waits<R>, R>, Counts, There<Here>>,
    D: LoopKeep<Adapter<ScriptIo, R>, ScriptPoller, ScriptClock, R, Here>,
    R: Wait + Clone + Drop,
{
    let mut event_loop: ScriptLoop<D, R> = ScriptLoop::with_script(rt, alloc).ok()?;
    let first = event_loop
        .handle()
        .adapt_io(rt, alloc, ScriptIo { number: 1 });
    let first = first.ok()?;
    let second = event_loop
        .handle()
        .adapt_io(rt, alloc, ScriptIo { number: 2 });
    let second = second.ok()?;
    let (executor, scheduler) = make_executor(rt, alloc).ok()?;
    let held = D::hold(Dispatcher::new(executor, Counts));
    event_loop.handle().register_dispatcher(held).ok()?;
    scheduler.schedule(Waits { io: second }).ok()?;
    scheduler.schedule(Waits { io: first }).ok()?;
    let mut count = 0;
    for _ in 0..2u32 {
        event_loop
            .dispatch(rt, Some(Duration::ZERO), &mut count)
            .ok()?;
    }
    let mut handle = event_loop.handle();
    let calls = handle.poller_mut().calls();
    let wanted = [
        ScriptCall::Add(1, 0, TO_READ),
        ScriptCall::Add(2, 1 << 40, TO_READ),
    ];
    Some(count == 0 && calls == wanted.as_slice())
}
