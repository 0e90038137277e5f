//! Channels in loops over the machine's poller, with senders on other threads.
use super::desk::{CLOSED, Held, Reader, are_all};
use calloop::channel::{Channel, Sender, SyncSender, make_channel, sync_channel};
use calloop::loop_logic::EventLoop;
use calloop::{Choice, Dispatcher, EventDispatcher, Here};
use calloop_mio::{MioPoller, SystemClock};
use std::alloc::Global;
use std::net::Net;
use std::sync::Wait;
use std::test::Fail;
use std::thread::spawn;
use std::time::{Clock as MachineClock, Duration};

// What each of three threads sends lies this far apart.
const APART: u32 = 10_000;

// How many numbers each of them sends.
const EACH: u32 = 1_000;

#[test]
fn a_bounded_channel_of_one_is_served_while_its_sender_waits(rt: HostRuntime) -> Result<(), Fail> {
    let (sender, channel) = sync_channel(&rt, rt.alloc(), 1)?;
    let child = spawn(&rt, move || sends_three(sender))?;
    let said = hears(&rt, rt.alloc(), channel);
    assert!(rt; child.join(&rt));
    assert_eq!(rt; said.as_deref(), Some([1, 2, 3, CLOSED].as_slice()));
    Ok(())
}

#[test]
fn numbers_of_three_threads_come_each_in_order_and_then_one_close(
    rt: HostRuntime,
) -> Result<(), Fail> {
    let (first, channel) = make_channel(&rt, rt.alloc())?;
    let second = first.clone()?;
    let third = first.clone()?;
    let one = spawn(&rt, move || sends_from(first, 0))?;
    let two = spawn(&rt, move || sends_from(second, APART))?;
    let three = spawn(&rt, move || sends_from(third, 2 * APART))?;
    let said = hears(&rt, rt.alloc(), channel);
    assert!(rt; one.join(&rt) && two.join(&rt) && three.join(&rt));
    assert_eq!(rt;
        said.map(|said| are_of_three(rt.alloc(), &said)),
        Some(Some(true))
    );
    Ok(())
}

// What a loop hears of a channel up to its close. This alone knows of which types the loop is.
fn hears<R>(rt: &R, alloc: Global, channel: Channel<u32, R>) -> Option<Vec<u32>>
where
    R: Net + MachineClock + Wait + Clone + Drop,
{
    hears_over::<Held<R>, R>(rt, alloc, channel)
}

// The same, in at most 100,000 dispatches of ten milliseconds.
fn hears_over<D, R>(rt: &R, alloc: Global, channel: Channel<u32, R>) -> Option<Vec<u32>>
where
    D: EventDispatcher<MioPoller<SystemClock<R>>, SystemClock<R>, R, Data = Vec<u32>>,
    D: Choice<Channel<u32, R>, Reader, Here>,
    R: Net + MachineClock + Wait + Clone + Drop,
{
    let clock = SystemClock::new(rt).ok()?;
    let poller = MioPoller::new(rt, alloc, clock.clone().ok()?).ok()?;
    let mut event_loop: EventLoop<D, _, _, R> = EventLoop::try_new(rt, alloc, poller, clock).ok()?;
    let held = D::hold(Dispatcher::new(channel, Reader));
    event_loop.handle().register_dispatcher(held).ok()?;
    let mut said = Vec::new(alloc);
    for _ in 0..100_000u32 {
        let timeout = Some(Duration::from_millis(10));
        event_loop.dispatch(rt, timeout, &mut said).ok()?;
        if said.last() == Some(&CLOSED) {
            return Some(said);
        }
    }
    None
}

// Whether these are the numbers of the three threads, each one's in order, and then the close.
fn are_of_three(alloc: Global, said: &[u32]) -> Option<bool> {
    let (last, numbers) = said.split_last()?;
    for place in 0..3u32 {
        let first = place * APART;
        let mut own = Vec::new(alloc);
        for number in numbers {
            if *number / APART == place {
                own.push(*number).ok()?;
            }
        }
        if !are_all(&own, first + 1..first + EACH + 1) {
            return Some(false);
        }
    }
    Some(*last == CLOSED && numbers.len() == 3 * EACH as usize)
}

// Sends the numbers above this one: whether all were sent.
fn sends_from<R: Wait + Drop>(sender: Sender<u32, R>, first: u32) -> bool {
    for number in 1..=EACH {
        if sender.send(first.saturating_add(number)).is_err() {
            return false;
        }
    }
    true
}

// Sends 1, 2 and 3, each once there is room: whether all were sent.
fn sends_three<R: Wait + Drop>(sender: SyncSender<u32, R>) -> bool {
    for number in 1..=3u32 {
        if sender.send(number).is_err() {
            return false;
        }
    }
    true
}
