//! Many sockets, no more of them, and many rings.
use super::square::{Scene, Square, plays};
use calloop::ping::{Ping, make_ping};
use calloop::{Interest, Mode, PingSource};
use calloop_mio::MioIo;
use mio::net::UnixStream;
use std::alloc::Global;
use std::net::Net;
use std::process::Abort;
use std::sync::Wait;
use std::test::Fail;
use std::thread;
use std::thread::{JoinHandle, Threads};
use std::time::Duration;

#[test]
fn a_wait_tells_of_1024_sockets_and_the_next_of_the_last(rt: HostRuntime) {
    plays(&rt, rt.alloc(), AWaitTellsOf1024SocketsAndTheNextOfTheLast);
}

#[derive(Drop)]
struct AWaitTellsOf1024SocketsAndTheNextOfTheLast;

impl<R: Net + Wait + Drop + Abort> Scene<R> for AWaitTellsOf1024SocketsAndTheNextOfTheLast {
    fn play<S: Square<R> + Drop>(self, rt: &R, alloc: Global) {
        for count in [1024usize, 1025] {
            let mut square = S::new(rt, alloc);
            // Fewer if the machine gives no more descriptors.
            let peers = crowd(rt, alloc, &mut square, count);
            let there = peers.len();
            assert_eq!(rt; square.writable(), there.min(1024));
            assert_eq!(rt; square.writable(), there.saturating_sub(1024));
            assert_eq!(rt; square.writable(), 0);
        }
    }
}

#[test]
fn without_descriptors_a_poller_is_refused_and_a_loop_goes_on(rt: HostRuntime) {
    plays(
        &rt,
        rt.alloc(),
        WithoutDescriptorsAPollerIsRefusedAndALoopGoesOn,
    );
}

#[derive(Drop)]
struct WithoutDescriptorsAPollerIsRefusedAndALoopGoesOn;

impl<R: Net + Wait + Drop + Abort> Scene<R> for WithoutDescriptorsAPollerIsRefusedAndALoopGoesOn {
    fn play<S: Square<R> + Drop>(self, rt: &R, alloc: Global) {
        let mut square = S::new(rt, alloc);
        let (_, mut peer) = square.stream(Mode::Level);
        let pairs = many_pairs(rt, alloc);
        // A machine may give more descriptors than these take.
        let is_over = UnixStream::pair(rt).is_err();
        assert!(rt; is_over || pairs.len() == MANY);
        assert_eq!(rt; square.refuses_a_poller(), is_over);
        assert!(rt; std::io::Write::write_all(&mut peer, &[8]).is_ok());
        assert!(rt; square.says(&[8]));
        drop(pairs);
        assert!(rt; UnixStream::pair(rt).is_ok());
        assert!(rt; !square.refuses_a_poller());
    }
}

#[test]
fn ten_thousand_rings_of_a_thread_leave_nothing_standing(rt: HostRuntime) -> Result<(), Fail> {
    let (bell, source) = make_ping(&rt, rt.alloc()).expect(&rt, "a ping");
    let child = thread::spawn(&rt, move || rings_often(bell))?;
    plays(&rt, rt.alloc(), RingsOfAThread { source, child });
    Ok(())
}

// The source of a ping, and the thread that rings it ten thousand times.
struct RingsOfAThread<R: Wait + Drop> {
    source: PingSource<R>,
    child: JoinHandle<Ping<R>>,
}

// The callbacks are called at least once and at most ten thousand times by the end of the thread, and then no more.
impl<R: Threads + Net + Wait + Drop + Abort> Scene<R> for RingsOfAThread<R> {
    fn play<S: Square<R> + Drop>(self, rt: &R, alloc: Global) {
        let RingsOfAThread { source, child } = self;
        let mut square = S::new(rt, alloc);
        square.insert_ping(source, 1);
        let mut calls = 0usize;
        for _ in 0..100u32 {
            calls = calls.saturating_add(square.dispatch(Duration::from_millis(1)).1.len());
        }
        let _bell = child.join(rt);
        calls = calls.saturating_add(square.dispatch(Duration::ZERO).1.len());
        assert!(rt; calls >= 1 && calls <= 10_000);
        assert!(rt; square.says(&[]));
    }
}

// Rings ten thousand times, and gives the ping back.
fn rings_often<R: Wait + Drop>(bell: Ping<R>) -> Ping<R> {
    for _ in 0..10_000u32 {
        let _receipt = bell.ping();
    }
    bell
}

// Of so many streams of the loop, as far as there are descriptors, each of which can be written to, the peers.
fn crowd<R: Net + Wait + Drop + Abort, S: Square<R>>(
    rt: &R,
    alloc: Global,
    square: &mut S,
    count: usize,
) -> Vec<UnixStream> {
    let mut peers = Vec::with_capacity(alloc, count).expect(rt, "room");
    for _ in 0..count {
        let Ok((near, far)) = UnixStream::pair(rt) else {
            break;
        };
        square.insert(MioIo::from(near), Interest::WRITE, Mode::Edge);
        assert!(rt; peers.push(far).is_ok());
    }
    peers
}

const MANY: usize = 15_000;

// As many streams as the machine gives, at most 15,000 pairs.
fn many_pairs<R: Net + Abort>(rt: &R, alloc: Global) -> Vec<(UnixStream, UnixStream)> {
    let mut pairs = Vec::new(alloc);
    for _ in 0..MANY {
        let Ok(pair) = UnixStream::pair(rt) else {
            break;
        };
        assert!(rt; pairs.push(pair).is_ok());
    }
    pairs
}
