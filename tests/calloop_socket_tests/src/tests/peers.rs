//! Streams of the machine, and what their peers do.
use super::square::{Scene, Square, plays};
use calloop::{Error, Interest, Mode, RegistrationToken};
use calloop_mio::MioIo;
use calloop_test_sources::visitor::{CONNECTED, END, WRITABLE};
use mio::net::{TcpListener, TcpStream};
use std::alloc::Global;
use std::io::Write;
use std::net::{Ipv4Addr, Net, Shutdown, SocketAddr};
use std::process::Abort;
use std::sync::Wait;
use std::time::Duration;

#[test]
fn bytes_of_a_peer_are_read(rt: HostRuntime) {
    plays(&rt, rt.alloc(), BytesOfAPeerAreRead);
}

#[derive(Drop)]
struct BytesOfAPeerAreRead;

impl<R: Net + Wait + Drop + Abort> Scene<R> for BytesOfAPeerAreRead {
    fn play<S: Square<R> + Drop>(self, rt: &R, alloc: Global) {
        let mut square = S::new(rt, alloc);
        let (_, mut peer) = square.stream(Mode::Level);
        assert!(rt; square.says(&[]));
        assert!(rt; peer.write_all(&[1, 2, 3, 4, 5, 6]).is_ok());
        assert!(rt; square.hears(&[1, 2, 3, 4, 5, 6]));
        assert!(rt; square.says(&[]));
    }
}

#[test]
fn level_hears_again_of_what_it_left_and_edge_does_not(rt: HostRuntime) {
    plays(&rt, rt.alloc(), LevelHearsAgainOfWhatItLeftAndEdgeDoesNot);
}

#[derive(Drop)]
struct LevelHearsAgainOfWhatItLeftAndEdgeDoesNot;

impl<R: Net + Wait + Drop + Abort> Scene<R> for LevelHearsAgainOfWhatItLeftAndEdgeDoesNot {
    fn play<S: Square<R> + Drop>(self, rt: &R, alloc: Global) {
        for (mode, rest) in [
            (Mode::Level, [9, 10].as_slice()),
            (Mode::Edge, [].as_slice()),
        ] {
            let mut square = S::new(rt, alloc);
            let (_, mut peer) = square.stream(mode);
            assert!(rt; peer.write_all(&[1, 2, 3, 4, 5, 6, 7, 8, 9, 10]).is_ok());
            assert!(rt; square.says(&[1, 2, 3, 4, 5, 6, 7, 8]));
            assert!(rt; square.says(rest));
            assert!(rt; square.says(&[]));
        }
    }
}

#[test]
fn a_stream_is_heard_of_as_its_interest_asks(rt: HostRuntime) {
    plays(&rt, rt.alloc(), AStreamIsHeardOfAsItsInterestAsks);
}

#[derive(Drop)]
struct AStreamIsHeardOfAsItsInterestAsks;

impl<R: Net + Wait + Drop + Abort> Scene<R> for AStreamIsHeardOfAsItsInterestAsks {
    fn play<S: Square<R> + Drop>(self, rt: &R, alloc: Global) {
        let mut square = S::new(rt, alloc);
        let (token, mut peer) = square.stream(Mode::Level);
        assert!(rt; peer.write_all(&[1, 2, 3]).is_ok());
        assert!(rt; square.says(&[1, 2, 3]));
        assert!(rt; square.updates(token, Interest::WRITE));
        assert!(rt; square.says(&[WRITABLE]) && square.says(&[WRITABLE]));
        assert!(rt; square.updates(token, Interest::READ));
        assert!(rt; square.says(&[]));
    }
}

#[test]
fn a_stream_that_was_taken_out_is_heard_again_once_inserted(rt: HostRuntime) {
    plays(
        &rt,
        rt.alloc(),
        AStreamThatWasTakenOutIsHeardAgainOnceInserted,
    );
}

#[derive(Drop)]
struct AStreamThatWasTakenOutIsHeardAgainOnceInserted;

impl<R: Net + Wait + Drop + Abort> Scene<R> for AStreamThatWasTakenOutIsHeardAgainOnceInserted {
    fn play<S: Square<R> + Drop>(self, rt: &R, alloc: Global) {
        let mut square = S::new(rt, alloc);
        let (token, mut peer) = square.stream(Mode::Level);
        assert!(rt; square.says(&[]));
        let io = square.takes_out(token).expect(rt, "a socket");
        assert!(rt; peer.write_all(&[4]).is_ok());
        assert!(rt; square.says(&[]));
        let again = square.insert(io, Interest::READ, Mode::Level);
        assert_eq!(rt; again, RegistrationToken::new(0, 1));
        assert!(rt; square.says(&[4]));
    }
}

#[test]
fn a_peer_that_closes_is_an_end_behind_its_last_bytes(rt: HostRuntime) {
    plays(&rt, rt.alloc(), APeerThatClosesIsAnEndBehindItsLastBytes);
}

#[derive(Drop)]
struct APeerThatClosesIsAnEndBehindItsLastBytes;

impl<R: Net + Wait + Drop + Abort> Scene<R> for APeerThatClosesIsAnEndBehindItsLastBytes {
    fn play<S: Square<R> + Drop>(self, rt: &R, alloc: Global) {
        let mut square = S::new(rt, alloc);
        let (token, mut peer) = square.stream(Mode::Level);
        assert!(rt; peer.write_all(&[7]).is_ok());
        drop(peer);
        assert!(rt; square.says(&[7]));
        assert!(rt; square.says(&[END]));
        assert!(rt; square.takes_out(token).is_none());
        assert!(rt; square.says(&[]));
    }
}

#[test]
fn a_peer_that_closes_by_half_is_an_end(rt: HostRuntime) {
    plays(&rt, rt.alloc(), APeerThatClosesByHalfIsAnEnd);
}

#[derive(Drop)]
struct APeerThatClosesByHalfIsAnEnd;

impl<R: Net + Wait + Drop + Abort> Scene<R> for APeerThatClosesByHalfIsAnEnd {
    fn play<S: Square<R> + Drop>(self, rt: &R, alloc: Global) {
        for mode in [Mode::Level, Mode::OneShot, Mode::Edge] {
            let mut square = S::new(rt, alloc);
            let (token, peer) = square.stream(mode);
            assert!(rt; peer.shutdown(Shutdown::Write).is_ok());
            assert!(rt; square.says(&[END]));
            assert!(rt; square.takes_out(token).is_none());
            drop(peer);
            assert!(rt; square.says(&[]));
        }
    }
}

#[test]
fn a_peer_that_resets_is_an_error_and_then_an_end(rt: HostRuntime) {
    plays(&rt, rt.alloc(), APeerThatResetsIsAnErrorAndThenAnEnd);
}

#[derive(Drop)]
struct APeerThatResetsIsAnErrorAndThenAnEnd;

impl<R: Net + Wait + Drop + Abort> Scene<R> for APeerThatResetsIsAnErrorAndThenAnEnd {
    fn play<S: Square<R> + Drop>(self, rt: &R, alloc: Global) {
        let mut square = S::new(rt, alloc);
        let (mut near, far) = connect(rt);
        assert!(rt; near.write_all(&[1]).is_ok());
        let token = square.insert(MioIo::from(near), Interest::READ, Mode::Level);
        let (_, mut other) = square.stream(Mode::Level);
        drop(far);
        assert!(rt; other.write_all(&[5]).is_ok());
        let (answer, mut said) = square.dispatch(Duration::from_millis(10));
        assert!(rt; matches!(answer, Err(Error::OtherError(_))));
        for _ in 0..2u32 {
            let (rest, later) = square.dispatch(Duration::ZERO);
            assert!(rt; rest.is_ok() && said.extend_from_slice(&later).is_ok());
        }
        said.sort_unstable();
        assert_eq!(rt; said.as_slice(), [5, END].as_slice());
        assert!(rt; square.takes_out(token).is_none());
    }
}

#[test]
fn a_listener_lets_in_while_a_stream_leaves(rt: HostRuntime) {
    plays(&rt, rt.alloc(), AListenerLetsInWhileAStreamLeaves);
}

#[derive(Drop)]
struct AListenerLetsInWhileAStreamLeaves;

impl<R: Net + Wait + Drop + Abort> Scene<R> for AListenerLetsInWhileAStreamLeaves {
    fn play<S: Square<R> + Drop>(self, rt: &R, alloc: Global) {
        let mut square = S::new(rt, alloc);
        let listener = TcpListener::bind(rt, any_port()).expect(rt, "a listener");
        let address = listener.local_addr().expect(rt, "an address");
        square.insert(MioIo::from(listener), Interest::READ, Mode::Level);
        let (leaving, peer) = square.stream(Mode::Level);
        drop(peer);
        let mut caller = TcpStream::connect(rt, address).expect(rt, "a stream");
        let (answer, mut said) = square.dispatch(Duration::from_millis(10));
        assert!(rt; answer.is_ok());
        said.sort_unstable();
        assert_eq!(rt; said.as_slice(), [END, CONNECTED].as_slice());
        let guest = square.guest().expect(rt, "a guest");
        let token = square.insert(MioIo::from(guest), Interest::READ, Mode::Level);
        assert_eq!(rt; token, RegistrationToken::new(1, 1));
        assert!(rt; square.takes_out(leaving).is_none());
        assert!(rt; caller.write_all(&[3]).is_ok());
        assert!(rt; square.hears(&[3]));
    }
}

fn any_port() -> SocketAddr {
    SocketAddr::from((Ipv4Addr::LOCALHOST, 0))
}

// Two ends of a connection.
fn connect<R: Net + Abort>(rt: &R) -> (TcpStream, TcpStream) {
    let listener = TcpListener::bind(rt, any_port()).expect(rt, "a listener");
    let address = listener.local_addr().expect(rt, "an address");
    let near = TcpStream::connect(rt, address).expect(rt, "a stream");
    for _ in 0..1000u32 {
        if let Ok((far, _)) = listener.accept() {
            return (near, far);
        }
    }
    panic!(rt; "nobody connected")
}
