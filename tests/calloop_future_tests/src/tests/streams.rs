//! Streams as sources of a loop over a scripted poller.
use super::desk::are_all;
use super::job::Outbox;
use calloop::futures::{Context, Poll};
use calloop::stream::{Stream, StreamSource};
use calloop::{
    Choice, Dispatcher, EventDispatcher, Here, On, RegistrationToken, ScriptLoop, Sources,
};
use calloop_script::{ScriptClock, ScriptPoller};
use std::alloc::Global;
use std::sync::{Arc, Wait};
use std::time::Duration;

// What is said when the end is told.
const ENDED: u32 = u32::MAX;

#[test]
fn a_turn_reads_1024_items_and_the_next_one_the_rest_and_the_end(rt: HostRuntime) {
    assert_eq!(rt; goes(&rt, rt.alloc(), Trial::TwoTurns(1_025)), Some(true));
}

#[test]
fn the_end_behind_1024_items_is_told_in_the_next_turn(rt: HostRuntime) {
    assert_eq!(rt; goes(&rt, rt.alloc(), Trial::TwoTurns(1_024)), Some(true));
}

#[test]
fn a_pending_stream_is_read_on_once_it_is_woken(rt: HostRuntime) {
    assert_eq!(rt; goes(&rt, rt.alloc(), Trial::Woken), Some(true));
}

/// What a test does with a loop of a stream.
#[derive(Clone, Copy)]
enum Trial {
    /// A stream of so many items is read in two turns.
    TwoTurns(u32),
    /// One is woken.
    Woken,
}

// Whether it is read as it is to. None if memory is short. This alone knows of which types the loop is.
fn goes<R: Wait + Clone + Drop>(rt: &R, alloc: Global, trial: Trial) -> Option<bool> {
    tries::<Held<R>, R>(rt, alloc, trial)
}

fn tries<D, R>(rt: &R, alloc: Global, trial: Trial) -> Option<bool>
where
    R: Wait + Clone + Drop,
    D: EventDispatcher<ScriptPoller, ScriptClock, R, Data = Vec<u32>>,
    Numbers<R>: Stream<R, Item = u32>,
    D: Choice<StreamSource<Numbers<R>, R>, Reader, Here>,
{
    match trial {
        Trial::TwoTurns(end) => is_read_in_two_turns::<D, R>(rt, alloc, end),
        Trial::Woken => is_woken::<D, R>(rt, alloc),
    }
}

/// Says each item, and the end.
#[derive(Drop)]
struct Reader;

impl On<Option<u32>, Vec<u32>, ()> for Reader {
    fn on(&mut self, item: Option<u32>, said: &mut Vec<u32>) {
        let _failed = said.push(item.unwrap_or(ENDED));
    }
}

/// The numbers below its end. Before one of them it is pending once, and hands its waker out.
#[derive(Drop)]
struct Numbers<R: Wait + Drop> {
    next: u32,
    end: u32,
    rests_before: Option<u32>,
    outbox: Arc<Outbox<R>, Global>,
}

impl<R: Wait + Clone + Drop> Stream<R> for Numbers<R> {
    type Item = u32;

    fn poll_next(&mut self, cx: &mut Context<'_, R>) -> Poll<Option<u32>> {
        if self.rests_before == Some(self.next) {
            self.rests_before = None;
            self.outbox.hand_out(cx.waker().clone().ok());
            return Poll::Pending;
        }
        if self.next >= self.end {
            return Poll::Ready(None);
        }
        let number = self.next;
        self.next = number.saturating_add(1);
        Poll::Ready(Some(number))
    }
}

type Held<R> = Sources<Dispatcher<StreamSource<Numbers<R>, R>, Reader>, Vec<u32>>;

// A loop with a stream of the numbers below this end, and where it hands its waker out.
#[derive(Drop)]
struct Desk<D, R>
where
    D: EventDispatcher<ScriptPoller, ScriptClock, R>,
    R: Wait + Clone + Drop,
{
    event_loop: ScriptLoop<D, R>,
    outbox: Arc<Outbox<R>, Global>,
    token: RegistrationToken,
    said: Vec<u32>,
}

impl<D, R> Desk<D, R>
where
    R: Wait + Clone + Drop,
    D: EventDispatcher<ScriptPoller, ScriptClock, R, Data = Vec<u32>>,
    Numbers<R>: Stream<R, Item = u32>,
    D: Choice<StreamSource<Numbers<R>, R>, Reader, Here>,
{
    fn new(rt: &R, alloc: Global, end: u32, rests_before: Option<u32>) -> Option<Desk<D, R>> {
        let mut event_loop: ScriptLoop<D, R> = ScriptLoop::with_script(rt, alloc).ok()?;
        event_loop.handle().poller_mut().keep_waits(4).ok()?;
        let outbox = Arc::new(alloc, Outbox::new(rt.clone().ok()?)).ok()?;
        let numbers = Numbers {
            next: 0,
            end,
            rests_before,
            outbox: Arc::try_clone(&outbox).ok()?,
        };
        let source = StreamSource::new(rt, alloc, numbers).ok()?;
        let held = D::hold(Dispatcher::new(source, Reader));
        let token = event_loop.handle().register_dispatcher(held).ok()?;
        Some(Desk {
            event_loop,
            outbox,
            token,
            said: Vec::new(alloc),
        })
    }

    // Whether a dispatch succeeds, which forgets what was said before.
    fn goes_on(&mut self, rt: &R, millis: u64) -> bool {
        self.said.clear();
        let timeout = Some(Duration::from_millis(millis));
        self.event_loop
            .dispatch(rt, timeout, &mut self.said)
            .is_ok()
    }

    fn was_asked(&mut self, millis: &[u64]) -> bool {
        let mut handle = self.event_loop.handle();
        let waits = handle.poller_mut().waits();
        waits.len() == millis.len()
            && waits.iter().zip(millis).all(|(wait, wanted)| *wait
                == Some(Duration::from_millis(*wanted)))
    }

    fn is_gone(&mut self) -> bool {
        self.event_loop.handle().dispatcher(&self.token).is_err()
    }
}

fn is_read_in_two_turns<D, R>(rt: &R, alloc: Global, end: u32) -> Option<bool>
where
    R: Wait + Clone + Drop,
    D: EventDispatcher<ScriptPoller, ScriptClock, R, Data = Vec<u32>>,
    Numbers<R>: Stream<R, Item = u32>,
    D: Choice<StreamSource<Numbers<R>, R>, Reader, Here>,
{
    let mut desk: Desk<D, R> = Desk::new(rt, alloc, end, None)?;
    let first = desk.goes_on(rt, 100) && are_all(&desk.said, 0..1_024);
    let stays = !desk.is_gone();
    let second = desk.goes_on(rt, 100) && are_all_and_end(&desk.said, end);
    Some(first && stays && second && desk.was_asked(&[0, 0]) && desk.is_gone())
}

fn is_woken<D, R>(rt: &R, alloc: Global) -> Option<bool>
where
    R: Wait + Clone + Drop,
    D: EventDispatcher<ScriptPoller, ScriptClock, R, Data = Vec<u32>>,
    Numbers<R>: Stream<R, Item = u32>,
    D: Choice<StreamSource<Numbers<R>, R>, Reader, Here>,
{
    let mut desk: Desk<D, R> = Desk::new(rt, alloc, 4, Some(2))?;
    let first = desk.goes_on(rt, 100) && desk.said.as_slice() == [0, 1].as_slice();
    let rests = desk.goes_on(rt, 100) && desk.said.is_empty();
    let is_woken = desk.outbox.wakes(2);
    let last = desk.goes_on(rt, 100) && desk.said.as_slice() == [2, 3, ENDED].as_slice();
    let outlives = desk.outbox.wakes(1) && desk.goes_on(rt, 100) && desk.said.is_empty();
    Some(first && rests && is_woken && last && outlives && desk.was_asked(&[0, 100, 0, 100]))
}

// Whether these are the numbers from 1,024 up to the end, and then that this was told.
fn are_all_and_end(said: &[u32], end: u32) -> bool {
    match said.split_last() {
        Some((last, numbers)) => *last == ENDED && are_all(numbers, 1_024..end),
        None => false,
    }
}
