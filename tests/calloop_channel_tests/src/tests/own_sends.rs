//! A callback that sends on its own channel.
use super::desk::CLOSED;
use calloop::channel::{Channel, Event, Sender, make_channel};
use calloop::loop_logic::EventLoop;
use calloop::{Choice, Dispatcher, EventDispatcher, Here, On, Sources};
use calloop_script::{ScriptClock, ScriptPoller};
use std::alloc::Global;
use std::sync::Wait;
use std::time::Duration;

#[test]
fn what_a_callback_sends_on_its_own_channel_comes_in_the_same_turn(rt: HostRuntime) {
    let heard = hears_itself::<Held<HostRuntime>, HostRuntime>(&rt, rt.alloc());
    assert_eq!(rt; heard, Some(true));
}

/// Says each message, and at the first one sends another.
#[derive(Drop)]
struct Echo<R: Wait + Drop> {
    own: Option<Sender<u32, R>>,
}

impl<R: Wait + Drop> On<Event<u32>, Vec<u32>, ()> for Echo<R> {
    fn on(&mut self, event: Event<u32>, said: &mut Vec<u32>) {
        let number = match event {
            Event::Msg(number) => number,
            Event::Closed => CLOSED,
        };
        let _failed = said.push(number);
        if let Some(own) = self.own.take() {
            let _receipt = own.send(2);
        }
    }
}

type Held<R> = Sources<Dispatcher<Channel<u32, R>, Echo<R>>, Vec<u32>>;

// Whether both messages and the close come in one turn, since the callback drops its sender, and the next dispatch waits.
fn hears_itself<D, R>(rt: &R, alloc: Global) -> Option<bool>
where
    D: EventDispatcher<ScriptPoller, ScriptClock, R, Data = Vec<u32>>,
    D: Choice<Channel<u32, R>, Echo<R>, Here>,
    R: Wait + Clone + Drop,
{
    let mut poller = ScriptPoller::new(alloc).ok()?;
    poller.keep_waits(2).ok()?;
    let clock = poller.clock().ok()?;
    let mut event_loop: EventLoop<D, _, _, R> = EventLoop::try_new(rt, alloc, poller, clock).ok()?;
    let (sender, channel) = make_channel(rt, alloc).ok()?;
    sender.send(1).ok()?;
    let echo = Echo { own: Some(sender) };
    let held = D::hold(Dispatcher::new(channel, echo));
    event_loop.handle().register_dispatcher(held).ok()?;
    let mut said = Vec::new(alloc);
    let timeout = Duration::from_millis(100);
    for _ in 0..2u32 {
        event_loop.dispatch(rt, Some(timeout), &mut said).ok()?;
    }
    let mut handle = event_loop.handle();
    let waits = handle.poller_mut().waits();
    Some(
        said.as_slice() == [1, 2, CLOSED].as_slice()
            && waits == [Some(Duration::ZERO), Some(timeout)].as_slice(),
    )
}
