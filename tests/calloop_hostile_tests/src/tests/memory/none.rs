//! What takes no memory, when there is none.
use super::super::desk::Note;
use calloop::channel::{Channel, SyncSender, sync_channel};
use calloop::futures::{Context, Executor, Future, Poll, Waker, make_executor};
use calloop::ping::{Ping, make_ping};
use calloop::{
    Choice, Dispatcher, EventDispatcher, Here, Idle, LoopSignal, On, OneOf, PingSource, ScriptLoop,
    Sources, There,
};
use calloop_script::{ScriptClock, ScriptPoller};
use calloop_test_sources::source::Teller;
use std::alloc::Global;
use std::sync::{Arc, Mutex, Wait};
use std::time::Duration;

#[test]
fn what_takes_no_memory_succeeds(rt: HostRuntime) {
    // If it can't be set up there is nothing to try.
    if let Some(desk) = Desk::<Held<HostRuntime>, HostRuntime>::new(&rt, rt.alloc()) {
        assert!(rt; desk.goes_on());
    }
}

/// Leaves its waker there, and waits.
#[derive(Drop)]
struct Waits<R: Wait + Drop> {
    rt: R,
    waker: Arc<Mutex<Option<Waker<R>>>, Global>,
}

impl<R: Wait + Clone + Drop> Future<R> for Waits<R> {
    type Output = u32;

    fn poll(&mut self, cx: &mut Context<'_, R>) -> Poll<u32> {
        *self.waker.lock(&self.rt) = cx.waker().clone().ok();
        Poll::Pending
    }
}

/// Says a number.
#[derive(Drop)]
struct Says;

impl On<u32, Vec<u32>, ()> for Says {
    fn on(&mut self, number: u32, said: &mut Vec<u32>) {
        let _failed = said.push(number);
    }
}

type Held<R> = Sources<
    OneOf<Dispatcher<PingSource<R>, Teller>, Dispatcher<Executor<Waits<R>, R>, Says>>,
    Vec<u32>,
    Note,
>;

/// A loop with a ping and an executor, whose future waits; two idles, one of which has run; and a channel of two, in no loop.
#[derive(Drop)]
struct Desk<D, R>
where
    D: EventDispatcher<ScriptPoller, ScriptClock, R>,
    R: Wait + Drop,
{
    event_loop: ScriptLoop<D, R>,
    ping: Ping<R>,
    again: Ping<R>,
    waker: Waker<R>,
    sender: SyncSender<u32, R>,
    channel: Channel<u32, R>,
    idle: Idle,
    signal: LoopSignal,
}

impl<D, R> Desk<D, R>
where
    D: EventDispatcher<ScriptPoller, ScriptClock, R, Data = Vec<u32>, Idle = Note>,
    D: Choice<PingSource<R>, Teller, Here>,
    D: Choice<Executor<Waits<R>, R>, Says, There<Here>>,
    R: Wait + Clone + Drop,
{
    fn new(rt: &R, alloc: Global) -> Option<Desk<D, R>> {
        let mut event_loop: ScriptLoop<D, R> = ScriptLoop::with_script(rt, alloc).ok()?;
        let (ping, source) = make_ping(rt, alloc).ok()?;
        let held = <D as Choice<PingSource<R>, Teller, Here>>::hold(Dispatcher::new(
            source,
            Teller { number: 1 },
        ));
        event_loop.handle().register_dispatcher(held).ok()?;
        let (executor, scheduler) = make_executor(rt, alloc).ok()?;
        let held = <D as Choice<Executor<Waits<R>, R>, Says, There<Here>>>::hold(Dispatcher::new(
            executor, Says,
        ));
        event_loop.handle().register_dispatcher(held).ok()?;
        let waker = Arc::new(alloc, Mutex::new(None)).ok()?;
        let of_future = Waits {
            rt: rt.clone().ok()?,
            waker: Arc::try_clone(&waker).ok()?,
        };
        scheduler.schedule(of_future).ok()?;
        let mut said = Vec::new(alloc);
        event_loop
            .dispatch(rt, Some(Duration::ZERO), &mut said)
            .ok()?;
        let (sender, channel) = sync_channel(rt, alloc, 3).ok()?;
        let idle = event_loop.handle().insert_idle(Note(9)).ok()?;
        let again = ping.clone().ok()?;
        let signal = event_loop.get_signal().ok()?;
        let waker = waker.lock(rt).take()?;
        Some(Desk {
            event_loop,
            ping,
            again,
            waker,
            sender,
            channel,
            idle,
            signal,
        })
    }

    // Rings, wakes, sends, receives, cancels, stops and lets all of it go.
    fn goes_on(self) -> bool {
        let Desk {
            mut event_loop,
            ping,
            again,
            waker,
            sender,
            mut channel,
            idle,
            signal,
        } = self;
        let _receipt = ping.ping();
        let _receipt = again.ping();
        drop(again);
        waker.wake();
        waker.wake();
        let are_sent = sender.try_send(1).is_ok()
            && sender.send(2).is_ok()
            && sender.send(3).is_ok()
            && sender.try_send(4).is_err();
        let are_received = channel.try_recv() == Ok(1) && channel.recv() == Ok(2);
        event_loop.handle().cancel(idle);
        signal.stop();
        signal.wakeup();
        let is_woken = event_loop.handle().poller_mut().is_woken();
        drop(event_loop);
        let _receipt = ping.ping();
        drop(ping);
        waker.wake();
        drop(waker);
        drop(sender);
        let is_last = channel.recv() == Ok(3) && channel.recv().is_err();
        drop(channel);
        are_sent && are_received && is_woken && is_last
    }
}
