//! A poller that keeps levels is asked again only for what changed.
use calloop::sys::Watched;
use calloop::sys::notifier::Notifier;
use calloop::{Error, Instant, Interest, Mode, Poll, Poller, Readiness, Token};
use std::alloc::Global;
use std::io;
use std::os::fd::RawFd;
use std::sync::atomic::AtomicBool;
use std::sync::{Arc, Wait};
use std::time::Duration;

const FD: RawFd = 3;

// Counts how often it is asked for a socket that it has, and fails if it is told to.
#[derive(Drop)]
struct Keeps {
    signal: Arc<AtomicBool, Global>,
    asked: u32,
    fails: bool,
}

impl Keeps {
    fn set_failing(&mut self, fails: bool) {
        self.fails = fails;
    }
}

impl Poller for Keeps {
    ghost outside = { record { reads = λ _ _ _. Unit {0}; waits = λ _ _ _ _ _. Unit {0}; calls = λ _ _ _ _. Unit {0}; faults = λ _. 0 } };

    ghost sockets = { λ _ _ _ _ _. Unit {0} };

    fn add(&mut self, _fd: RawFd, _key: u64, _watched: Watched) -> io::Result<()> {
        Ok(())
    }

    fn modify(&mut self, _fd: RawFd, _key: u64, _watched: Watched) -> io::Result<()> {
        self.asked = self.asked.saturating_add(1);
        if self.fails {
            return Err(io::Error::from(io::ErrorKind::NotFound));
        }
        Ok(())
    }

    fn keeps_levels() -> bool {
        true
    }

    fn delete(&mut self, _fd: RawFd) -> io::Result<()> {
        Ok(())
    }

    fn now(&mut self) -> Instant {
        Instant { nanos: 0 }
    }

    fn wait(
        &mut self,
        _timeout: Option<Duration>,
        _left: usize,
        _events: &mut Vec<(u64, Readiness)>,
    ) -> io::Result<()> {
        Ok(())
    }

    fn notifier(&self) -> Result<Notifier, Error> {
        Ok(Notifier::Script(Arc::try_clone(&self.signal)?))
    }
}

// How often the poller was asked in all, once the socket is armed again so; `None` if that failed.
fn asked<C, R: Wait + Drop>(
    poll: &mut Poll<Keeps, C, R>,
    token: Token,
    interest: Interest,
    mode: Mode,
) -> Option<u32> {
    let armed = poll.rearm(FD, interest, mode, token);
    armed.ok()?;
    Some(poll.poller_mut().asked)
}

#[test]
fn a_poller_that_keeps_levels_is_asked_again_only_for_what_changed(rt: HostRuntime) {
    let signal = Arc::new(rt.alloc(), AtomicBool::new(false)).expect(&rt, "a signal");
    let poller = Keeps {
        signal,
        asked: 0,
        fails: false,
    };
    let own = rt.clone().expect(&rt, "a runtime");
    let mut poll = Poll::new(own, rt.alloc(), poller, ()).expect(&rt, "a poll");
    let (read, both) = (Interest::READ, Interest::BOTH);
    let token = Token::from_key(0);
    assert!(rt; poll.register(FD, read, Mode::Level, token).is_ok());
    let rows = [
        (read, Mode::Level, 0),
        (both, Mode::Level, 1),
        (both, Mode::Level, 1),
        (both, Mode::Edge, 2),
        (both, Mode::Edge, 3),
        (both, Mode::Level, 4),
        (both, Mode::Level, 4),
    ];
    for (interest, mode, wanted) in rows {
        assert_eq!(rt; asked(&mut poll, token, interest, mode), Some(wanted));
    }
    assert!(rt; poll.reregister(FD, token, both, Mode::Level, token).is_ok());
    assert_eq!(rt; asked(&mut poll, token, both, Mode::Level), Some(5));
    poll.poller_mut().set_failing(true);
    assert_eq!(rt; asked(&mut poll, token, read, Mode::Level), None);
    poll.poller_mut().set_failing(false);
    assert_eq!(rt; asked(&mut poll, token, both, Mode::Level), Some(7));
}
