//! Lists of calls by chance, beside the standard library's own queue.
use super::desk::{End, Tried, both_ends};
use calloop::channel::{Channel, TryRecvError};
use std::alloc::Global;
use std::collections::VecDeque;
use std::sync::Wait;

#[test]
fn calls_by_chance_answer_as_a_queue_does(rt: HostRuntime) {
    for seed in 0..20u64 {
        assert_eq!(rt; differs(&rt, rt.alloc(), None, seed), Some(None));
        assert_eq!(rt; differs(&rt, rt.alloc(), Some(1), seed), Some(None));
        assert_eq!(rt; differs(&rt, rt.alloc(), Some(3), seed), Some(None));
    }
}

// The first of 400 calls that answers otherwise than the queue.
fn differs<R: Wait + Clone + Drop>(
    rt: &R,
    alloc: Global,
    bound: Option<usize>,
    seed: u64,
) -> Option<Option<u32>> {
    let mut both = Both::new(rt, alloc, bound)?;
    let mut chance = Chance { state: seed };
    for call in 0..400u32 {
        let same = match chance.below(12) {
            0..=4 => both.sends(call)?,
            5..=9 => both.receives(),
            10 => both.clones()?,
            _ => both.drops(),
        };
        if !same {
            return Some(Some(call));
        }
    }
    Some(None)
}

// A channel, and a queue that has to have the same messages.
#[derive(Drop)]
struct Both<R: Wait + Drop> {
    senders: Vec<End<R>>,
    channel: Channel<u32, R>,
    queue: VecDeque<u32>,
    bound: Option<usize>,
}

impl<R: Wait + Clone + Drop> Both<R> {
    fn new(rt: &R, alloc: Global, bound: Option<usize>) -> Option<Both<R>> {
        let (sender, channel) = both_ends(rt, alloc, bound)?;
        let mut senders = Vec::new(alloc);
        senders.push(sender).ok()?;
        let queue = VecDeque::new(alloc);
        Some(Both {
            senders,
            channel,
            queue,
            bound,
        })
    }

    fn sends(&mut self, number: u32) -> Option<bool> {
        let Some(sender) = self.senders.last() else {
            return Some(true);
        };
        let tried = sender.tries(number)?;
        if self.bound.is_some_and(|bound| self.queue.len() >= bound) {
            return Some(tried == Tried::Full(number));
        }
        self.queue.push_back(number).ok()?;
        Some(tried == Tried::Sent)
    }

    fn receives(&mut self) -> bool {
        let received = self.channel.try_recv();
        match self.queue.pop_front() {
            Some(number) => received == Ok(number),
            None if self.senders.is_empty() => received == Err(TryRecvError::Disconnected),
            None => received == Err(TryRecvError::Empty),
        }
    }

    fn clones(&mut self) -> Option<bool> {
        if let Some(sender) = self.senders.last() {
            let again = sender.again()?;
            self.senders.push(again).ok()?;
        }
        Some(true)
    }

    fn drops(&mut self) -> bool {
        let _dropped = self.senders.pop();
        true
    }
}

// A linear congruential generator.
#[derive(Drop)]
struct Chance {
    state: u64,
}

impl Chance {
    // A number below this one.
    fn below(&mut self, end: u64) -> u64 {
        self.state = self
            .state
            .wrapping_mul(6_364_136_223_846_793_005)
            .wrapping_add(1_442_695_040_888_963_407);
        (self.state >> 33).checked_rem(end).unwrap_or(0)
    }
}
