//! A channel within a source that doesn't heed how its turns end.
ghost use Rattle.calloop_test_sources.specs.Spending.{spending, keeping_spending};

use super::desk::{CLOSED, Reader};
use calloop::channel::{Channel, make_channel};
use calloop::loop_logic::EventLoop;
use calloop::{
    Asking, Callback, Choice, Dispatcher, EventDispatcher, EventIterator, EventSource, Here, Poll,
    Poller, PostAction, Readiness, Result, Sources, Synthetic, Token, TokenFactory,
};
use calloop_script::{ScriptClock, ScriptPoller};
use std::alloc::Global;
use std::sync::Wait;
use std::time::Duration;

#[test]
fn a_close_that_its_parent_does_not_heed_is_told_once_and_the_next_wait_is_whole(rt: HostRuntime) {
    let waited = waits_behind_the_close::<Held<HostRuntime>, HostRuntime>(&rt, rt.alloc());
    assert_eq!(rt; waited, Some(true));
}

/// Each turn of it ends as if the source within were to stay.
#[derive(Drop)]
struct Heedless<T> {
    source: T,
}

impl<P: Poller, C, R: Wait + Drop, T> EventSource<P, C, R> for Heedless<T>
where
    T: EventSource<P, C, R> + Drop,
{
    type Event = T::Event;

    type Metadata = T::Metadata;

    type Ret = T::Ret;

    type Error = T::Error;

    // What the source within does to the poller, and no more.
    ghost means = { spending (λ s. s.source) T.EventSource.means };

    fn process_events<F, X, Q>(
        &mut self,
        readiness: Readiness,
        token: Token,
        poll: &mut Poll<P, C, R>,
        callback: &mut F,
        data: &mut X,
        requests: &mut Q,
    ) -> std::result::Result<PostAction, T::Error>
    where
        Q: Asking,
        F: Callback<T::Event, T::Metadata, T::Ret, X, Q>,
    {
        self.source
            .process_events(readiness, token, poll, callback, data, requests)?;
        Ok(PostAction::Continue)
    }

    fn register(&mut self, poll: &mut Poll<P, C, R>, factory: &mut TokenFactory) -> Result<()> {
        self.source.register(poll, factory)
    }

    fn reregister(&mut self, poll: &mut Poll<P, C, R>, factory: &mut TokenFactory) -> Result<()> {
        self.source.reregister(poll, factory)
    }

    fn unregister(&mut self, poll: &mut Poll<P, C, R>) -> Result<()> {
        self.source.unregister(poll)
    }

    fn needs_extra_lifecycle_events() -> bool {
        false
    }

    fn max_synthetic() -> u16 {
        0
    }

    fn before_sleep(&mut self, _out: &mut Synthetic) -> Result<()> {
        Ok(())
    }

    fn before_handle_events(&mut self, _events: EventIterator<'_>) {}

    ghost keeps = { keeping_spending (λ s. s.source) T.EventSource.means T.EventSource.keeps };
}

type Held<R> = Sources<Dispatcher<Heedless<Channel<u32, R>>, Reader>, Vec<u32>>;

// Whether a message and the close come in one turn, and two further dispatches wait as long as they may and tell nothing.
fn waits_behind_the_close<D, R>(rt: &R, alloc: Global) -> Option<bool>
where
    D: EventDispatcher<ScriptPoller, ScriptClock, R, Data = Vec<u32>>,
    D: Choice<Heedless<Channel<u32, R>>, Reader, Here>,
    R: Wait + Clone + Drop,
{
    let mut poller = ScriptPoller::new(alloc).ok()?;
    poller.keep_waits(3).ok()?;
    let clock = poller.clock().ok()?;
    let mut event_loop: EventLoop<D, _, _, R> = EventLoop::try_new(rt, alloc, poller, clock).ok()?;
    let (sender, channel) = make_channel(rt, alloc).ok()?;
    sender.send(1).ok()?;
    drop(sender);
    let held = D::hold(Dispatcher::new(Heedless { source: channel }, Reader));
    let token = event_loop.handle().register_dispatcher(held).ok()?;
    let mut said = Vec::new(alloc);
    let timeout = Duration::from_millis(100);
    for _ in 0..3u32 {
        event_loop.dispatch(rt, Some(timeout), &mut said).ok()?;
    }
    let mut handle = event_loop.handle();
    let waits = [Some(Duration::ZERO), Some(timeout), Some(timeout)];
    let is_whole = handle.poller_mut().waits() == waits.as_slice();
    let is_held = handle.disable(&token).is_ok();
    Some(said.as_slice() == [1, CLOSED].as_slice() && is_whole && is_held)
}
