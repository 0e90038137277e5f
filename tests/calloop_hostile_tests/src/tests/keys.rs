//! Sources whose keys move, or that are disabled and enabled, while a thread rings, sends or wakes.
use calloop::channel::{Channel, Event, Sender, make_channel};
use calloop::futures::{Context, Executor, Future, Poll, Waker, make_executor};
use calloop::ping::{Ping, make_ping};
use calloop::{
    Choice, Dispatcher, EventDispatcher, Here, MioPoller, On, PingSource, RegistrationToken,
    Sources, SystemClock, SystemLoop,
};
use calloop_test_sources::shifting::Shifting;
use std::alloc::Global;
use std::net::Net;
use std::sync::atomic::{AtomicBool, AtomicU32, Ordering};
use std::sync::{Arc, Mutex, Wait};
use std::test::Fail;
use std::thread::{JoinHandle, Threads, spawn};
use std::time::{Clock as MachineClock, Duration};

// How often a thread rings, sends or wakes.
const TIMES: u32 = 1_000;

#[test]
fn the_last_ring_is_called_though_the_key_moves(rt: HostRuntime) -> Result<(), Fail> {
    for how in [How::Updates, How::Toggles] {
        let last = last_ring::<Rung<HostRuntime>, HostRuntime>(&rt, rt.alloc(), how);
        assert_eq!(rt; last, Some(TIMES));
    }
    Ok(())
}

#[test]
fn each_message_comes_in_order_though_the_key_moves(rt: HostRuntime) -> Result<(), Fail> {
    for how in [How::Updates, How::Toggles] {
        let last = last_message::<Heard<HostRuntime>, HostRuntime>(&rt, rt.alloc(), how);
        assert_eq!(rt; last, Some(TIMES));
    }
    Ok(())
}

#[test]
fn the_last_wake_is_polled_though_the_key_moves(rt: HostRuntime) -> Result<(), Fail> {
    for how in [How::Updates, How::Toggles] {
        let last = last_wake::<Polled<HostRuntime>, HostRuntime>(&rt, rt.alloc(), how);
        assert_eq!(rt; last, Some(TIMES));
    }
    Ok(())
}

/// What the loop does to the source between dispatches.
#[derive(Clone, Copy, PartialEq, Eq)]
enum How {
    Updates,
    /// It disables and enables it.
    Toggles,
}

/// A number that a thread raises.
type Number = Arc<AtomicU32, Global>;

type Machine<R> = MioPoller<SystemClock<R>>;

fn shared_number(alloc: Global) -> Option<(Number, Number)> {
    let number = Arc::new(alloc, AtomicU32::new(0)).ok()?;
    let again = Arc::try_clone(&number).ok()?;
    Some((number, again))
}

// Moves the source, and dispatches, until the thread has ended; and once more then.
fn goes_on<D, R>(
    rt: &R,
    event_loop: &mut SystemLoop<D, R>,
    token: &RegistrationToken,
    how: How,
    child: JoinHandle<bool>,
    ended: &AtomicBool,
) -> Option<u32>
where
    D: EventDispatcher<Machine<R>, SystemClock<R>, R, Data = u32>,
    R: Net + MachineClock + Threads + Wait + Clone + Drop + Send + Sync + 'static,
{
    let mut last = 0;
    for _ in rt.forever() {
        if ended.load(Ordering::SeqCst) {
            break;
        }
        moves(event_loop, token, how)?;
        let timeout = Some(Duration::from_millis(1));
        event_loop.dispatch(rt, timeout, &mut last).ok()?;
    }
    let went = child.join(rt);
    moves(event_loop, token, how)?;
    event_loop
        .dispatch(rt, Some(Duration::ZERO), &mut last)
        .ok()?;
    went.then_some(last)
}

fn moves<D, R>(event_loop: &mut SystemLoop<D, R>, token: &RegistrationToken, how: How) -> Option<()>
where
    D: EventDispatcher<Machine<R>, SystemClock<R>, R, Data = u32>,
    R: Net + MachineClock + Wait + Clone + Drop,
{
    if how == How::Toggles {
        event_loop.handle().disable(token).ok()?;
        return event_loop.handle().enable(token).ok();
    }
    event_loop.handle().update(token).ok()
}

/// Reads the number.
#[derive(Drop)]
struct Reads(Number);

impl On<(), u32, ()> for Reads {
    fn on(&mut self, _ring: (), last: &mut u32) {
        *last = self.0.load(Ordering::SeqCst);
    }
}

type Rung<R> = Sources<Dispatcher<Shifting<PingSource<R>>, Reads>, u32>;

fn last_ring<D, R>(rt: &R, alloc: Global, how: How) -> Option<u32>
where
    D: EventDispatcher<Machine<R>, SystemClock<R>, R, Data = u32>,
    D: Choice<Shifting<PingSource<R>>, Reads, Here>,
    R: Net + MachineClock + Threads + Wait + Clone + Drop + Send + Sync + 'static,
{
    let mut event_loop: SystemLoop<D, R> = SystemLoop::system(rt, alloc).ok()?;
    let (number, raised) = shared_number(alloc)?;
    let (ping, source) = make_ping(rt, alloc).ok()?;
    let held = D::hold(Dispatcher::new(Shifting::new(source), Reads(number)));
    let token = event_loop.handle().register_dispatcher(held).ok()?;
    let ended = Arc::new(alloc, AtomicBool::new(false)).ok()?;
    let ends = Arc::try_clone(&ended).ok()?;
    // One ping stays, so that the source does.
    let kept = ping.clone().ok()?;
    let child = spawn(rt, move || rings(ping, raised, ends)).ok()?;
    let read = goes_on(rt, &mut event_loop, &token, how, child, &ended);
    drop(kept);
    read
}

fn rings<R: Wait + Drop>(ping: Ping<R>, raised: Number, ends: Arc<AtomicBool, Global>) -> bool {
    for number in 1..=TIMES {
        raised.store(number, Ordering::SeqCst);
        let _receipt = ping.ping();
    }
    ends.store(true, Ordering::SeqCst);
    true
}

/// Notes the last message, if it follows the one before.
#[derive(Drop)]
struct Follows;

impl On<Event<u32>, u32, ()> for Follows {
    fn on(&mut self, event: Event<u32>, last: &mut u32) {
        if let Event::Msg(number) = event {
            *last = if number == last.saturating_add(1) {
                number
            } else {
                u32::MAX
            };
        }
    }
}

type Heard<R> = Sources<Dispatcher<Shifting<Channel<u32, R>>, Follows>, u32>;

fn last_message<D, R>(rt: &R, alloc: Global, how: How) -> Option<u32>
where
    D: EventDispatcher<Machine<R>, SystemClock<R>, R, Data = u32>,
    D: Choice<Shifting<Channel<u32, R>>, Follows, Here>,
    R: Net + MachineClock + Threads + Wait + Clone + Drop + Send + Sync + 'static,
{
    let mut event_loop: SystemLoop<D, R> = SystemLoop::system(rt, alloc).ok()?;
    let (sender, channel) = make_channel(rt, alloc).ok()?;
    let held = D::hold(Dispatcher::new(Shifting::new(channel), Follows));
    let token = event_loop.handle().register_dispatcher(held).ok()?;
    let ended = Arc::new(alloc, AtomicBool::new(false)).ok()?;
    let ends = Arc::try_clone(&ended).ok()?;
    let kept = sender.clone().ok()?;
    let child = spawn(rt, move || sends(sender, ends)).ok()?;
    let heard = goes_on(rt, &mut event_loop, &token, how, child, &ended);
    drop(kept);
    heard
}

fn sends<R: Wait + Drop>(sender: Sender<u32, R>, ends: Arc<AtomicBool, Global>) -> bool {
    let all = (1..=TIMES).all(|number| sender.send(number).is_ok());
    ends.store(true, Ordering::SeqCst);
    all
}

/// Where a future leaves its waker, and what its last poll found of the number.
#[derive(Drop)]
struct Desk<R: Wait + Drop> {
    rt: R,
    waker: Mutex<Option<Waker<R>>>,
    number: AtomicU32,
}

/// Gives the number once it is the last one.
#[derive(Drop)]
struct Counts<R: Wait + Drop> {
    desk: Arc<Desk<R>, Global>,
}

impl<R: Wait + Clone + Drop> Future<R> for Counts<R> {
    type Output = u32;

    fn poll(&mut self, cx: &mut Context<'_, R>) -> Poll<u32> {
        let number = self.desk.number.load(Ordering::SeqCst);
        if number == TIMES {
            return Poll::Ready(number);
        }
        if number == 0 {
            *self.desk.waker.lock(&self.desk.rt) = cx.waker().clone().ok();
        }
        Poll::Pending
    }
}

/// Notes what a future gives.
#[derive(Drop)]
struct Notes;

impl On<u32, u32, ()> for Notes {
    fn on(&mut self, number: u32, last: &mut u32) {
        *last = number;
    }
}

type Polled<R> = Sources<Dispatcher<Shifting<Executor<Counts<R>, R>>, Notes>, u32>;

fn last_wake<D, R>(rt: &R, alloc: Global, how: How) -> Option<u32>
where
    D: EventDispatcher<Machine<R>, SystemClock<R>, R, Data = u32>,
    D: Choice<Shifting<Executor<Counts<R>, R>>, Notes, Here>,
    R: Net + MachineClock + Threads + Wait + Clone + Drop + Send + Sync + 'static,
{
    let mut event_loop: SystemLoop<D, R> = SystemLoop::system(rt, alloc).ok()?;
    let (executor, scheduler) = make_executor(rt, alloc).ok()?;
    let held = D::hold(Dispatcher::new(Shifting::new(executor), Notes));
    let token = event_loop.handle().register_dispatcher(held).ok()?;
    let desk = Desk {
        rt: rt.clone().ok()?,
        waker: Mutex::new(None),
        number: AtomicU32::new(0),
    };
    let desk = Arc::new(alloc, desk).ok()?;
    let of_future = Arc::try_clone(&desk).ok()?;
    scheduler.schedule(Counts { desk: of_future }).ok()?;
    let mut last = 0;
    let timeout = Some(Duration::ZERO);
    event_loop.dispatch(rt, timeout, &mut last).ok()?;
    let waker = desk.waker.lock(rt).take()?;
    let ended = Arc::new(alloc, AtomicBool::new(false)).ok()?;
    let ends = Arc::try_clone(&ended).ok()?;
    let child = spawn(rt, move || wakes(waker, desk, ends)).ok()?;
    goes_on(rt, &mut event_loop, &token, how, child, &ended)
}

fn wakes<R: Wait + Drop>(
    waker: Waker<R>,
    desk: Arc<Desk<R>, Global>,
    ends: Arc<AtomicBool, Global>,
) -> bool {
    for number in 1..=TIMES {
        desk.number.store(number, Ordering::SeqCst);
        waker.wake();
    }
    ends.store(true, Ordering::SeqCst);
    true
}
