//! Threads that wait at one end of a channel until the other end does its part, or goes.
use calloop::channel::{Channel, Sender, SyncSender, make_channel, sync_channel};
use std::alloc::Global;
use std::hint::spin_loop;
use std::sync::atomic::{AtomicU32, Ordering};
use std::sync::{Arc, Wait};
use std::test::Fail;
use std::thread::{sleep, spawn};
use std::time::{Clock, Duration};

// What a thread notes: that its wait is to begin, or how it ended.
const BEGINS: u32 = 1;

const GONE: u32 = 2;

const WENT: u32 = 10;

// In milliseconds: after which time a thread that begins to wait surely waits, and after which time it waits for good.
const SURE: u64 = 30;

const LONG: u64 = 5_000;

// How often a wait is tried that begins as it ends.
const TRIES: u32 = 500;

#[test]
fn a_send_that_waits_is_refused_once_its_channel_is_gone(rt: HostRuntime) -> Result<(), Fail> {
    let (sender, channel) = sync_channel(&rt, rt.alloc(), 1)?;
    let (note, of_thread) = notes(rt.alloc())?;
    let child = spawn(&rt, move || sends_two(sender, of_thread))?;
    assert!(rt; waits(&rt, &note));
    drop(channel);
    assert_eq!(rt; outcome(&rt, &note), GONE);
    child.join(&rt);
    Ok(())
}

#[test]
fn each_of_two_sends_that_wait_is_refused_once_their_channel_is_gone(
    rt: HostRuntime,
) -> Result<(), Fail> {
    let (sender, channel) = sync_channel(&rt, rt.alloc(), 1)?;
    let again = sender.clone()?;
    let (note, of_thread) = notes(rt.alloc())?;
    let (other_note, of_other) = notes(rt.alloc())?;
    let child = spawn(&rt, move || sends_two(sender, of_thread))?;
    assert!(rt; waits(&rt, &note));
    let other = spawn(&rt, move || sends_behind(again, of_other))?;
    assert!(rt; waits(&rt, &other_note) && note.load(Ordering::SeqCst) == BEGINS);
    drop(channel);
    assert_eq!(rt; outcome(&rt, &note), GONE);
    assert_eq!(rt; outcome(&rt, &other_note), GONE);
    child.join(&rt);
    other.join(&rt);
    Ok(())
}

#[test]
fn a_send_that_waits_goes_on_once_a_message_was_taken(rt: HostRuntime) -> Result<(), Fail> {
    let (sender, mut channel) = sync_channel(&rt, rt.alloc(), 1)?;
    let (note, of_thread) = notes(rt.alloc())?;
    let child = spawn(&rt, move || sends_two(sender, of_thread))?;
    assert!(rt; waits(&rt, &note));
    assert_eq!(rt; channel.try_recv(), Ok(1));
    assert_eq!(rt; outcome(&rt, &note), WENT);
    child.join(&rt);
    assert_eq!(rt; channel.try_recv(), Ok(2));
    Ok(())
}

#[test]
fn a_receiver_that_waits_gets_a_message_without_a_bound(rt: HostRuntime) -> Result<(), Fail> {
    let (sender, channel) = make_channel(&rt, rt.alloc())?;
    let (note, of_thread) = notes(rt.alloc())?;
    let child = spawn(&rt, move || receives(channel, of_thread))?;
    assert!(rt; waits(&rt, &note));
    assert!(rt; sender.send(7).is_ok());
    assert_eq!(rt; outcome(&rt, &note), WENT + 7);
    child.join(&rt);
    Ok(())
}

#[test]
fn a_receiver_that_waits_gets_a_message_that_is_tried(rt: HostRuntime) -> Result<(), Fail> {
    let (sender, channel) = sync_channel(&rt, rt.alloc(), 1)?;
    let (note, of_thread) = notes(rt.alloc())?;
    let child = spawn(&rt, move || receives(channel, of_thread))?;
    assert!(rt; waits(&rt, &note));
    assert!(rt; sender.try_send(7).is_ok());
    assert_eq!(rt; outcome(&rt, &note), WENT + 7);
    child.join(&rt);
    Ok(())
}

#[test]
fn a_receiver_that_waits_ends_once_the_last_sender_is_gone(rt: HostRuntime) -> Result<(), Fail> {
    let (sender, channel) = make_channel(&rt, rt.alloc())?;
    let again: Sender<u32, HostRuntime> = sender.clone()?;
    let (note, of_thread) = notes(rt.alloc())?;
    let child = spawn(&rt, move || receives(channel, of_thread))?;
    drop(again);
    assert!(rt; waits(&rt, &note));
    drop(sender);
    assert_eq!(rt; outcome(&rt, &note), GONE);
    child.join(&rt);
    Ok(())
}

#[test]
fn a_receiver_that_waits_ends_once_the_last_sender_with_a_bound_is_gone(
    rt: HostRuntime,
) -> Result<(), Fail> {
    let (sender, channel) = sync_channel(&rt, rt.alloc(), 1)?;
    let (note, of_thread) = notes(rt.alloc())?;
    let child = spawn(&rt, move || receives(channel, of_thread))?;
    assert!(rt; waits(&rt, &note));
    drop(sender);
    assert_eq!(rt; outcome(&rt, &note), GONE);
    child.join(&rt);
    Ok(())
}

#[test]
fn a_receiver_that_begins_to_wait_as_the_last_sender_goes_ends(
    rt: HostRuntime,
) -> Result<(), Fail> {
    for looks in 0..TRIES {
        let (sender, channel): (Sender<u32, HostRuntime>, _) = make_channel(&rt, rt.alloc())?;
        let (note, of_thread) = notes(rt.alloc())?;
        let child = spawn(&rt, move || receives(channel, of_thread))?;
        assert!(rt; begins(&note, looks));
        drop(sender);
        assert_eq!(rt; outcome(&rt, &note), GONE);
        child.join(&rt);
    }
    Ok(())
}

#[test]
fn a_send_that_begins_to_wait_as_its_channel_goes_is_refused(rt: HostRuntime) -> Result<(), Fail> {
    for looks in 0..TRIES {
        let (sender, channel) = sync_channel(&rt, rt.alloc(), 1)?;
        let (note, of_thread) = notes(rt.alloc())?;
        let child = spawn(&rt, move || sends_two(sender, of_thread))?;
        assert!(rt; begins(&note, looks));
        drop(channel);
        assert_eq!(rt; outcome(&rt, &note), GONE);
        child.join(&rt);
    }
    Ok(())
}

type Note = Arc<AtomicU32, Global>;

// What is noted here and there.
fn notes(alloc: Global) -> Result<(Note, Note), Fail> {
    let note = Arc::new(alloc, AtomicU32::new(0))?;
    let again = Arc::try_clone(&note)?;
    Ok((note, again))
}

// Whether the thread begins to wait. It has looked once more modulo 32 times then.
fn begins(note: &Note, looks: u32) -> bool {
    for _ in 0..u32::MAX {
        if note.load(Ordering::SeqCst) != 0 {
            for _ in 0..looks % 32 {
                spin_loop();
            }
            return true;
        }
    }
    false
}

// Whether the thread begins to wait, and has surely done so.
fn waits<R: Clock + Wait>(rt: &R, note: &Note) -> bool {
    for _ in 0..LONG {
        if note.load(Ordering::SeqCst) == BEGINS {
            sleep(rt, Duration::from_millis(SURE));
            return note.load(Ordering::SeqCst) == BEGINS;
        }
        sleep(rt, Duration::from_millis(1));
    }
    false
}

// How the thread's wait has ended, or that it waits for good.
fn outcome<R: Clock + Wait>(rt: &R, note: &Note) -> u32 {
    for _ in 0..LONG {
        if note.load(Ordering::SeqCst) != BEGINS {
            break;
        }
        sleep(rt, Duration::from_millis(1));
    }
    note.load(Ordering::SeqCst)
}

// Sends 1, and then 2, for which it has to wait.
fn sends_two<R: Wait + Drop>(sender: SyncSender<u32, R>, note: Note) {
    if sender.send(1).is_ok() {
        sends_behind(sender, note);
    }
}

// Sends 2, for which it has to wait.
fn sends_behind<R: Wait + Drop>(sender: SyncSender<u32, R>, note: Note) {
    note.store(BEGINS, Ordering::SeqCst);
    let ends = sender.send(2).is_ok();
    note.store(if ends { WENT } else { GONE }, Ordering::SeqCst);
}

// Receives a number, for which it has to wait.
fn receives<R: Wait + Drop>(channel: Channel<u32, R>, note: Note) {
    let mut channel = channel;
    note.store(BEGINS, Ordering::SeqCst);
    let ends = match channel.recv() {
        Ok(number) => WENT.saturating_add(number),
        Err(_) => GONE,
    };
    note.store(ends, Ordering::SeqCst);
}
