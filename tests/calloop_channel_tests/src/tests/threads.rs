//! Channels whose senders are on another thread.
use super::desk::{CLOSED, Desk, Held, Reader, are_all};
use calloop::channel::{Channel, RecvError, Sender, SyncSender, make_channel, sync_channel};
use calloop::{Choice, EventDispatcher, Here};
use calloop_script::{ScriptClock, ScriptPoller};
use std::alloc::Global;
use std::sync::Wait;
use std::test::Fail;
use std::thread::{Threads, spawn};

#[test]
fn numbers_of_another_thread_come_in_order(rt: HostRuntime) {
    assert_eq!(rt; goes(&rt, rt.alloc(), Trial::Numbers), Some(true));
}

#[test]
fn a_thread_waits_for_room_while_the_loop_takes_messages(rt: HostRuntime) {
    assert_eq!(rt; goes(&rt, rt.alloc(), Trial::Room), Some(true));
}

#[test]
fn a_receiver_waits_for_the_messages_of_another_thread(rt: HostRuntime) -> Result<(), Fail> {
    let (sender, mut channel) = sync_channel(&rt, rt.alloc(), 1)?;
    let child = spawn(&rt, move || waits_for_room(sender))?;
    for number in 0..5u32 {
        assert_eq!(rt; channel.recv(), Ok(number));
    }
    assert_eq!(rt; channel.recv(), Err(RecvError));
    assert!(rt; child.join(&rt));
    Ok(())
}

#[test]
fn each_of_several_that_wait_for_room_is_woken(rt: HostRuntime) -> Result<(), Fail> {
    let (sender, mut channel) = sync_channel(&rt, rt.alloc(), 1)?;
    let second = sender.clone()?;
    let third = sender.clone()?;
    let one = spawn(&rt, move || waits_for_room(sender))?;
    let other = spawn(&rt, move || waits_for_room(second))?;
    let last = spawn(&rt, move || waits_for_room(third))?;
    for _ in 0..15u32 {
        assert!(rt; channel.recv().is_ok());
    }
    assert_eq!(rt; channel.recv(), Err(RecvError));
    let are_sent = [one.join(&rt), other.join(&rt), last.join(&rt)];
    assert_eq!(rt; are_sent, [true; 3]);
    Ok(())
}

/// What a test does with a loop of channels, beside a thread.
#[derive(Clone, Copy)]
enum Trial {
    /// The thread sends numbers.
    Numbers,
    /// It waits for room.
    Room,
}

// Whether it goes as it is to. None if memory is short. This alone knows of which types the loop is.
fn goes<R>(rt: &R, alloc: Global, trial: Trial) -> Option<bool>
where
    R: Threads + Wait + Clone + Drop + Send + Sync + 'static,
{
    tries::<Held<R>, R>(rt, alloc, trial)
}

fn tries<D, R>(rt: &R, alloc: Global, trial: Trial) -> Option<bool>
where
    D: EventDispatcher<ScriptPoller, ScriptClock, R, Data = Vec<u32>>,
    D: Choice<Channel<u32, R>, Reader, Here>,
    R: Threads + Wait + Clone + Drop + Send + Sync + 'static,
{
    match trial {
        Trial::Numbers => hears_a_thread::<D, R>(rt, alloc),
        Trial::Room => makes_room::<D, R>(rt, alloc),
    }
}

// Whether a loop that runs beside a thread which sends hears all of it, in order.
fn hears_a_thread<D, R>(rt: &R, alloc: Global) -> Option<bool>
where
    D: EventDispatcher<ScriptPoller, ScriptClock, R, Data = Vec<u32>>,
    D: Choice<Channel<u32, R>, Reader, Here>,
    R: Threads + Wait + Clone + Drop + Send + Sync + 'static,
{
    let mut desk: Desk<D, R> = Desk::new(rt, alloc)?;
    let (sender, channel) = make_channel(rt, alloc).ok()?;
    desk.insert(channel)?;
    let child = spawn(rt, move || sends_a_hundred(sender)).ok()?;
    for _ in 0..1000u32 {
        if !desk.goes_on(Some(0)) {
            break;
        }
    }
    let are_sent = child.join(rt);
    Some(are_sent && desk.goes_on(Some(0)) && are_all_and_close(desk.said(), 100))
}

// Whether a loop hears all of a thread that waits for room.
fn makes_room<D, R>(rt: &R, alloc: Global) -> Option<bool>
where
    D: EventDispatcher<ScriptPoller, ScriptClock, R, Data = Vec<u32>>,
    D: Choice<Channel<u32, R>, Reader, Here>,
    R: Threads + Wait + Clone + Drop + Send + Sync + 'static,
{
    let mut desk: Desk<D, R> = Desk::new(rt, alloc)?;
    let (sender, channel) = sync_channel(rt, alloc, 1).ok()?;
    desk.insert(channel)?;
    let child = spawn(rt, move || waits_for_room(sender)).ok()?;
    for _ in rt.forever() {
        if !desk.goes_on(Some(0)) || desk.said().contains(&CLOSED) {
            break;
        }
    }
    Some(child.join(rt) && are_all_and_close(desk.said(), 5))
}

// Whether these are the numbers below this, and then the close.
fn are_all_and_close(said: &[u32], end: u32) -> bool {
    match said.split_last() {
        Some((last, numbers)) => *last == CLOSED && are_all(numbers, 0..end),
        None => false,
    }
}

// Sends the numbers below 100: whether all were sent.
fn sends_a_hundred<R: Wait + Drop>(sender: Sender<u32, R>) -> bool {
    for number in 0..100u32 {
        if sender.send(number).is_err() {
            return false;
        }
    }
    true
}

// Sends the numbers below 5, each once there is room: whether all were sent.
fn waits_for_room<R: Wait + Drop>(sender: SyncSender<u32, R>) -> bool {
    for number in 0..5u32 {
        if sender.send(number).is_err() {
            return false;
        }
    }
    true
}
