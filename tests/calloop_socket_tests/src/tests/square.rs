use super::table::Table;
use calloop::generic::Generic;
use calloop::loop_logic::EventLoop;
use calloop::{
    Dispatcher, Error, EventDispatcher, Here, Hold, Interest, Mode, OneOf, PingSource,
    RegistrationToken, Requests, Sources, There,
};
use calloop_mio::{MioIo, MioPoller, SystemClock};
use calloop_test_sources::source::Teller;
use calloop_test_sources::visitor::{Reader, WRITABLE};
use mio::net::{TcpStream, UnixStream};
use std::alloc::Global;
use std::net::Net;
use std::process::Abort;
use std::sync::Wait;
use std::time::{Clock as MachineClock, Duration};

// A loop over pings and sockets of the machine.
pub trait Square<R: Wait + Drop>: Sized {
    fn new(rt: &R, alloc: Global) -> Self;

    // A socket of the loop.
    fn insert(&mut self, io: MioIo, interest: Interest, mode: Mode) -> RegistrationToken;

    // A stream of the loop that waits to be read, and its peer.
    fn stream(&mut self, mode: Mode) -> (RegistrationToken, UnixStream);

    // Inserts the source of a ping, which says this number.
    fn insert_ping(&mut self, source: PingSource<R>, number: u32);

    // What a dispatch answers, and what the callbacks say.
    fn dispatch(&mut self, timeout: Duration) -> (calloop::Result<()>, Vec<u32>);

    // Whether a dispatch without a wait succeeds, in which the callbacks say these numbers.
    fn says(&mut self, numbers: &[u32]) -> bool;

    // Whether the callbacks say just these numbers in at most a hundred dispatches of ten milliseconds.
    fn hears(&mut self, numbers: &[u32]) -> bool;

    // Gives a socket another interest, and updates it.
    fn updates(&mut self, token: RegistrationToken, interest: Interest) -> bool;

    // The source that a token names leaves the loop: its socket, if it is one that is registered no more.
    fn takes_out(&mut self, token: RegistrationToken) -> Option<MioIo>;

    // How many streams can be written to, by a dispatch without a wait.
    fn writable(&mut self) -> usize;

    // The one who connected last to the socket that came first.
    fn guest(&mut self) -> Option<TcpStream>;

    // Whether no other poller can be made.
    fn refuses_a_poller(&self) -> bool;
}

// What tests look for in a source with its callback.
pub trait Choice {
    // Sets the interest of a socket. False of a ping.
    fn interests(&mut self, interest: Interest) -> bool;

    // Its socket, if it is one that is registered no more.
    fn socket(self) -> Option<MioIo>;

    // The one who connected last to it.
    fn guest(&mut self) -> Option<TcpStream>;
}

// What a test does at a square.
pub trait Scene<R: Wait + Drop> {
    fn play<S: Square<R> + Drop>(self, rt: &R, alloc: Global);
}

// This alone knows of which types the square is.
pub fn plays<S, R>(rt: &R, alloc: Global, scene: S)
where
    S: Scene<R>,
    R: Net + MachineClock + Wait + Clone + Drop + Abort,
{
    scene.play::<Table<Held<R>, Machine<R>, SystemClock<R>, R>>(rt, alloc);
}

type Machine<R> = MioPoller<SystemClock<R>>;

type Held<R> = Sources<
    OneOf<Dispatcher<PingSource<R>, Teller>, Dispatcher<Generic<MioIo>, Reader>>,
    Vec<u32>,
>;

type Second = There<Here>;

impl<D, R> Square<R> for Table<D, Machine<R>, SystemClock<R>, R>
where
    D: EventDispatcher<Machine<R>, SystemClock<R>, R, Data = Vec<u32>, Idle = ()> + Choice,
    D: Hold<PingSource<R>, Teller, Machine<R>, SystemClock<R>, R, Vec<u32>, Requests<D>, Here>,
    D: Hold<Generic<MioIo>, Reader, Machine<R>, SystemClock<R>, R, Vec<u32>, Requests<D>, Second>,
    R: Net + MachineClock + Wait + Clone + Drop + Abort,
{
    fn new(rt: &R, alloc: Global) -> Table<D, Machine<R>, SystemClock<R>, R> {
        let clock = SystemClock::new(rt).expect(rt, "a clock");
        let read_by_poller = clock.clone().expect(rt, "a clock");
        let poller = MioPoller::new(rt, alloc, read_by_poller).expect(rt, "a poller");
        Table {
            rt: rt.clone().expect(rt, "a runtime"),
            alloc,
            event_loop: EventLoop::try_new(rt, alloc, poller, clock).expect(rt, "a loop"),
        }
    }

    fn insert(&mut self, io: MioIo, interest: Interest, mode: Mode) -> RegistrationToken {
        let source = Generic::new(io, interest, mode);
        let reader = Reader::new(self.alloc);
        let inserted = self.event_loop.handle().insert_source(source, reader);
        inserted.ok().expect(&self.rt, "a registration")
    }

    fn stream(&mut self, mode: Mode) -> (RegistrationToken, UnixStream) {
        let (near, far) = UnixStream::pair(&self.rt).expect(&self.rt, "two streams");
        (self.insert(MioIo::from(near), Interest::READ, mode), far)
    }

    fn insert_ping(&mut self, source: PingSource<R>, number: u32) {
        let inserted = self
            .event_loop
            .handle()
            .insert_source(source, Teller { number });
        assert!(self.rt; inserted.is_ok());
    }

    fn dispatch(&mut self, timeout: Duration) -> (calloop::Result<()>, Vec<u32>) {
        let mut said = Vec::new(self.alloc);
        let answer = self.event_loop.dispatch(&self.rt, Some(timeout), &mut said);
        (answer, said)
    }

    fn says(&mut self, numbers: &[u32]) -> bool {
        let (answer, said) = self.dispatch(Duration::ZERO);
        answer.is_ok() && said.as_slice() == numbers
    }

    fn hears(&mut self, numbers: &[u32]) -> bool {
        let mut said = Vec::new(self.alloc);
        for _ in 0..100u32 {
            if said.len() >= numbers.len() {
                break;
            }
            let timeout = Some(Duration::from_millis(10));
            if self
                .event_loop
                .dispatch(&self.rt, timeout, &mut said)
                .is_err()
            {
                return false;
            }
        }
        said.as_slice() == numbers
    }

    fn updates(&mut self, token: RegistrationToken, interest: Interest) -> bool {
        let mut handle = self.event_loop.handle();
        let is_set = match handle.dispatcher_mut(&token) {
            Ok(held) => held.interests(interest),
            Err(_) => false,
        };
        is_set && handle.update(&token).is_ok()
    }

    fn takes_out(&mut self, token: RegistrationToken) -> Option<MioIo> {
        self.event_loop.handle().remove(token)?.socket()
    }

    fn writable(&mut self) -> usize {
        let (answer, said) = self.dispatch(Duration::ZERO);
        assert!(self.rt; answer.is_ok());
        said.iter().filter(|number| **number == WRITABLE).count()
    }

    fn guest(&mut self) -> Option<TcpStream> {
        let first = RegistrationToken::new(0, 0);
        match self.event_loop.handle().dispatcher_mut(&first) {
            Ok(held) => held.guest(),
            Err(_) => None,
        }
    }

    fn refuses_a_poller(&self) -> bool {
        let clock = SystemClock::new(&self.rt).expect(&self.rt, "a clock");
        let made = MioPoller::new(&self.rt, self.alloc, clock);
        matches!(made, Err(Error::IoError(_)))
    }
}

impl<R> Choice for Held<R>
where
    R: MachineClock + Wait + Clone + Drop,
{
    fn interests(&mut self, interest: Interest) -> bool {
        match &mut self.held {
            OneOf::Other(socket) => {
                socket.as_source_mut().interest = interest;
                true
            }
            OneOf::First(_) => false,
        }
    }

    fn socket(self) -> Option<MioIo> {
        match self.held {
            OneOf::Other(socket) => socket.into_source_inner().unwrap().ok(),
            OneOf::First(_) => None,
        }
    }

    fn guest(&mut self) -> Option<TcpStream> {
        match &mut self.held {
            OneOf::Other(socket) => socket.callback.guests.pop(),
            OneOf::First(_) => None,
        }
    }
}
