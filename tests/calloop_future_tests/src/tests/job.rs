//! The futures of the tests.
use calloop::futures::{Context, Future, Poll, Waker};
use std::alloc::{AllocError, Global};
use std::sync::atomic::{AtomicU32, Ordering};
use std::sync::{Arc, Mutex, Wait};

/// Where a future hands its waker out, and counts its polls.
#[derive(Drop)]
pub struct Outbox<R: Wait + Drop> {
    rt: R,
    waker: Mutex<Option<Waker<R>>>,
    polls: AtomicU32,
}

impl<R: Wait + Drop> Outbox<R> {
    pub fn new(rt: R) -> Outbox<R> {
        Outbox {
            rt,
            waker: Mutex::new(None),
            polls: AtomicU32::new(0),
        }
    }

    /// Hands a waker out.
    pub fn hand_out(&self, waker: Option<Waker<R>>) {
        let before = self.waker.lock(&self.rt).take();
        *self.waker.lock(&self.rt) = waker;
        drop(before);
    }

    /// How often its future was polled.
    pub fn polls(&self) -> u32 {
        self.polls.load(Ordering::SeqCst)
    }

    /// Takes the waker that was handed out last.
    pub fn take(&self) -> Option<Waker<R>> {
        self.waker.lock(&self.rt).take()
    }

    /// Wakes its future as many times: whether a waker was handed out.
    pub fn wakes(&self, times: u32) -> bool {
        let Some(waker) = self.take() else {
            return false;
        };
        for _ in 0..times {
            waker.wake();
        }
        self.hand_out(Some(waker));
        true
    }
}

/// Counts when it is dropped.
pub struct Faller {
    pub fallen: Arc<AtomicU32, Global>,
}

impl Drop for Faller {
    fn drop(self) {
        let Faller { fallen } = self;
        fallen.fetch_add(1, Ordering::SeqCst);
    }
}

/// What a future does.
#[derive(Drop)]
pub enum Job<R: Wait + Drop> {
    /// It gives this at once.
    Gives(u32),
    /// It wakes itself, this many times, clones its waker and drops the clone, and gives this at its second poll.
    Yields(u32, u32),
    /// It hands its waker out at its first poll, and gives this at its second.
    Waits(Arc<Outbox<R>, Global>, u32),
    /// It gives nothing, and counts its drop.
    Falls(Faller),
}

impl<R: Wait + Clone + Drop> Future<R> for Job<R> {
    type Output = u32;

    fn poll(&mut self, cx: &mut Context<'_, R>) -> Poll<u32> {
        match self {
            Job::Gives(number) => Poll::Ready(*number),
            Job::Yields(times, number) => {
                if *times == 0 {
                    return Poll::Ready(*number);
                }
                let again: Result<Waker<R>, AllocError> = cx.waker().clone();
                for _ in 0..*times {
                    cx.waker().wake();
                }
                drop(again);
                *times = 0;
                Poll::Pending
            }
            Job::Waits(outbox, number) => {
                if outbox.polls.fetch_add(1, Ordering::SeqCst) > 0 {
                    return Poll::Ready(*number);
                }
                outbox.hand_out(cx.waker().clone().ok());
                Poll::Pending
            }
            Job::Falls(_) => Poll::Pending,
        }
    }
}
