//! Channels when memory is short: what was refused comes back, and goes through once there is memory.
use calloop::Error;
use calloop::channel::{Channel, SendError, Sender, SyncSender, make_channel, sync_channel};
use std::alloc::Global;
use std::sync::Wait;

// The kit's unproved run lets one allocation fail: `rt try --test --fail-alloc N`.
#[test]
fn want_of_memory_loses_no_message(rt: HostRuntime) {
    assert_eq!(rt; sends_all(&rt, rt.alloc()), Some(true));
    assert_eq!(rt; tries_all(&rt, rt.alloc()), Some(true));
}

// A channel, if the first or the second try makes one.
fn make<R: Wait + Clone + Drop>(
    rt: &R,
    alloc: Global,
) -> Option<(Sender<u32, R>, Channel<u32, R>)> {
    match make_channel(rt, alloc) {
        Err(Error::OutOfMemory) => make_channel(rt, alloc).ok(),
        made => made.ok(),
    }
}

// The same of a channel of forty.
fn made_bounded<R: Wait + Clone + Drop>(
    rt: &R,
    alloc: Global,
) -> Option<(SyncSender<u32, R>, Channel<u32, R>)> {
    match sync_channel(rt, alloc, 40) {
        Err(Error::OutOfMemory) => sync_channel(rt, alloc, 40).ok(),
        made => made.ok(),
    }
}

// Whether all numbers below forty go through, each by one of two tries.
fn sends_all<R: Wait + Clone + Drop>(rt: &R, alloc: Global) -> Option<bool> {
    let (sender, mut channel) = make(rt, alloc)?;
    for number in 0..40u32 {
        match sender.send(number) {
            Ok(_) => {}
            Err(SendError::OutOfMemory(back)) if back == number => {
                sender.send(number).ok()?;
            }
            Err(_) => return None,
        }
    }
    Some((0..40u32).all(|number| channel.try_recv() == Ok(number)))
}

// Whether a channel that was made has room for all of them.
fn tries_all<R: Wait + Clone + Drop>(rt: &R, alloc: Global) -> Option<bool> {
    let (sender, mut channel) = made_bounded(rt, alloc)?;
    let are_sent = (0..40u32).all(|number| sender.try_send(number).is_ok());
    Some(are_sent && (0..40u32).all(|number| channel.try_recv() == Ok(number)))
}
