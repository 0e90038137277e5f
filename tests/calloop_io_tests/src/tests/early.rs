//! A poll of an adapter that was asked for, before it comes into its loop.
use super::TO_READ;
use super::looks::{READABLE, answer};
use calloop::futures::{Context, Executor, Future, Poll, Waker, make_executor};
use calloop::ping::make_ping;
use calloop::{
    Adapter, Async, Callback, Choice, Dispatcher, EventDispatcher, Here, On, OneOf, PingSource,
    Place, Requests, ScriptLoop, Sources, There,
};
use calloop_script::{ScriptCall, ScriptClock, ScriptIo, ScriptPoller};
use std::alloc::Global;
use std::sync::{Arc, Mutex, Wait};
use std::time::Duration;

#[test]
fn what_is_polled_before_an_adapter_comes_in_is_registered_and_heard(rt: HostRuntime) {
    let heard = hears::<Held<HostRuntime>, HostRuntime>(&rt, rt.alloc());
    assert_eq!(rt; heard, Some(true));
}

// The key of the third slot.
const KEY: u64 = 2 << 40;

type Handed<R> = Arc<Mutex<Option<Waker<R>>>, Global>;

/// Hands its waker out, and is done at its second poll.
#[derive(Drop)]
struct Hands<R: Wait + Drop> {
    rt: R,
    waker: Handed<R>,
    polls: u32,
}

impl<R: Wait + Clone + Drop> Future<R> for Hands<R> {
    type Output = ();

    fn poll(&mut self, cx: &mut Context<'_, R>) -> Poll<()> {
        self.polls = self.polls.saturating_add(1);
        if self.polls > 1 {
            return Poll::Ready(());
        }
        *self.waker.lock(&self.rt) = cx.waker().clone().ok();
        Poll::Pending
    }
}

/// What the callbacks were given.
#[derive(Drop)]
struct Given<R: Wait + Drop> {
    io: Option<Async<ScriptIo, R>>,
    is_pending: bool,
    woken: u32,
}

/// Counts the futures that are done.
#[derive(Drop)]
struct Counts;

impl<R: Wait + Drop> On<(), Given<R>, ()> for Counts {
    fn on(&mut self, _done: (), given: &mut Given<R>) {
        given.woken = given.woken.saturating_add(1);
    }
}

/// Asks for socket 1 to be adapted, and polls it with what a future handed out.
#[derive(Drop)]
struct Asker<R: Wait + Drop> {
    rt: R,
    alloc: Global,
    waker: Handed<R>,
}

impl<D, R> Callback<(), (), (), Given<R>, Requests<D, ()>> for Asker<R>
where
    D: Place<Adapter<ScriptIo, R>, There<Here>> + Drop,
    R: Wait + Clone + Drop,
{
    ghost may = { λ _ _ _ _ _ _ _ _ _ _. Unit {0} };

    fn call(
        &mut self,
        _event: (),
        _: &mut (),
        given: &mut Given<R>,
        requests: &mut Requests<D, ()>,
    ) {
        let socket = ScriptIo { number: 1 };
        let Ok((_ticket, io)) = requests.adapt(&self.rt, self.alloc, socket) else {
            return;
        };
        let mut io = io;
        if let Some(waker) = &*self.waker.lock(&self.rt) {
            let answer = io.readable().poll(&mut Context::from_waker(waker));
            given.is_pending = matches!(answer, Poll::Pending);
        }
        given.io = Some(io);
    }
}

type Held<R> = Sources<
    OneOf<
        Dispatcher<PingSource<R>, Asker<R>>,
        OneOf<Adapter<ScriptIo, R>, Dispatcher<Executor<Hands<R>, R>, Counts>>,
    >,
    Given<R>,
>;

// Whether a socket that was polled in the turn that asked for its adapter is registered in the next dispatch, and its event wakes.
fn hears<D, R>(rt: &R, alloc: Global) -> Option<bool>
where
    D: EventDispatcher<ScriptPoller, ScriptClock, R, Data = Given<R>>,
    D: Choice<PingSource<R>, Asker<R>, Here>,
    D: Choice<Executor<Hands<R>, R>, Counts, There<There<Here>>>,
    R: Wait + Clone + Drop,
{
    let mut event_loop: ScriptLoop<D, R> = ScriptLoop::with_script(rt, alloc).ok()?;
    let handed: Handed<R> = Arc::new(alloc, Mutex::new(None)).ok()?;
    let (ping, source) = make_ping(rt, alloc).ok()?;
    let asker = Asker {
        rt: rt.clone().ok()?,
        alloc,
        waker: Arc::try_clone(&handed).ok()?,
    };
    let held = <D as Choice<PingSource<R>, Asker<R>, Here>>::hold(Dispatcher::new(source, asker));
    event_loop.handle().register_dispatcher(held).ok()?;
    let (executor, scheduler) = make_executor(rt, alloc).ok()?;
    let held = <D as Choice<Executor<Hands<R>, R>, Counts, There<There<Here>>>>::hold(
        Dispatcher::new(executor, Counts),
    );
    event_loop.handle().register_dispatcher(held).ok()?;
    let hands = Hands {
        rt: rt.clone().ok()?,
        waker: handed,
        polls: 0,
    };
    scheduler.schedule(hands).ok()?;
    let mut given = Given {
        io: None,
        is_pending: false,
        woken: 0,
    };
    go_on(rt, &mut event_loop, &mut given)?;
    ping.ping();
    go_on(rt, &mut event_loop, &mut given)?;
    let is_early = given.is_pending && given.woken == 0;
    answer(&mut event_loop, alloc, KEY, READABLE)?;
    go_on(rt, &mut event_loop, &mut given)?;
    go_on(rt, &mut event_loop, &mut given)?;
    let mut handle = event_loop.handle();
    let is_added = handle.poller_mut().calls() == [ScriptCall::Add(1, KEY, TO_READ)].as_slice();
    Some(is_early && is_added && given.woken == 1)
}

fn go_on<D, R>(rt: &R, event_loop: &mut ScriptLoop<D, R>, given: &mut Given<R>) -> Option<()>
where
    D: EventDispatcher<ScriptPoller, ScriptClock, R, Data = Given<R>>,
    R: Wait + Clone + Drop,
{
    event_loop.dispatch(rt, Some(Duration::ZERO), given).ok()
}
