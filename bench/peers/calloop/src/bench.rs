//! A loop that is measured. What is set up before isn't.

use crate::row::{socket_dispatches, Row};
use crate::Failure;
use calloop::generic::Generic;
use calloop::ping::{make_ping, Ping, PingSource};
use calloop::timer::{TimeoutAction, Timer};
use calloop::{
    Dispatcher, EventLoop, Interest, LoopHandle, Mode, PostAction, Readiness, RegistrationToken,
};
use std::hint;
use std::io::{self, Write};
use std::os::unix::net::UnixStream;
use std::time::{Duration, Instant};

/// In what time the timers are due that don't fire while a row runs.
const FAR: Duration = Duration::from_secs(1_000_000);

/// Within how many nanoseconds the scattered moments lie.
const SCATTER: u64 = 1 << 20;

/// A loop, the calls of its callbacks, and the time that was measured.
pub struct Bench {
    event_loop: EventLoop<'static, u64>,
    handle: LoopHandle<'static, u64>,
    calls: u64,
    measured: Duration,
}

impl Bench {
    /// A loop without sources.
    pub fn new() -> Result<Bench, Failure> {
        let event_loop = EventLoop::try_new()?;
        Ok(Bench {
            handle: event_loop.handle(),
            event_loop,
            calls: 0,
            measured: Duration::ZERO,
        })
    }

    pub fn calls(&self) -> u64 {
        self.calls
    }

    pub fn nanoseconds(&self) -> u128 {
        self.measured.as_nanos()
    }

    pub fn run(&mut self, row: Row, count: u32, size: u32) -> Result<(), Failure> {
        match row {
            Row::RingAndDispatch => self.ring_and_dispatch(count, size),
            Row::TimersFired => self.timers_fired(count, size),
            Row::TimersCancelled => self.timers_cancelled(count, size),
            Row::InsertAndRemove => self.insert_and_remove(count, size),
            Row::IdleDispatch => self.idle_dispatch(count, size),
            Row::ReadableSockets => self.readable_sockets(count, size),
        }
    }

    fn ring_and_dispatch(&mut self, count: u32, size: u32) -> Result<(), Failure> {
        let pings = self.insert_pings(size)?;
        let began = Instant::now();
        for ping in pings.iter().cycle().take(count as usize) {
            ping.ping();
            self.dispatch()?;
        }
        self.stop(began);
        Ok(())
    }

    fn timers_fired(&mut self, count: u32, size: u32) -> Result<(), Failure> {
        for _ in 0..count {
            self.fire_timers(size)?;
        }
        Ok(())
    }

    /// One round: the way to the last deadline isn't measured.
    fn fire_timers(&mut self, size: u32) -> Result<(), Failure> {
        let wanted = self.calls + u64::from(size);
        let from = Instant::now();
        self.insert_timers(size, from)?;
        self.stop(from);
        come_to(from + Duration::from_nanos(SCATTER));
        let began = Instant::now();
        self.dispatch_until(wanted, size)?;
        self.stop(began);
        Ok(())
    }

    fn timers_cancelled(&mut self, count: u32, size: u32) -> Result<(), Failure> {
        let far = self.insert_far_timers(size)?;
        let began = Instant::now();
        for number in 0..count {
            let token = self.insert_timer(scatter(far, size.wrapping_add(number)))?;
            self.handle.remove(token);
        }
        self.stop(began);
        Ok(())
    }

    /// Removing hands nothing back. But the loop and the caller share a dispatcher, so the same one is inserted each time.
    fn insert_and_remove(&mut self, count: u32, size: u32) -> Result<(), Failure> {
        let _standing = self.insert_pings(size)?;
        let (_ping, source) = make_ping()?;
        let dispatcher: Dispatcher<PingSource, u64> = Dispatcher::new(source, rung);
        let began = Instant::now();
        for _ in 0..count {
            let token = self.handle.register_dispatcher(dispatcher.clone())?;
            self.handle.remove(token);
        }
        self.stop(began);
        Ok(())
    }

    fn idle_dispatch(&mut self, count: u32, size: u32) -> Result<(), Failure> {
        self.insert_far_timers(size)?;
        self.measure_dispatches(u64::from(count))
    }

    /// A dispatch takes few events, so there are as many dispatches as call for all sockets, COUNT times.
    fn readable_sockets(&mut self, count: u32, size: u32) -> Result<(), Failure> {
        let _peers = self.insert_sockets(size)?;
        self.measure_dispatches(socket_dispatches(count, size))
    }

    fn measure_dispatches(&mut self, count: u64) -> Result<(), Failure> {
        let began = Instant::now();
        for _ in 0..count {
            self.dispatch()?;
        }
        self.stop(began);
        Ok(())
    }

    /// Dispatches, at most so often, until so many calls were made in all.
    fn dispatch_until(&mut self, calls: u64, most: u32) -> Result<(), Failure> {
        for _ in 0..most {
            if self.calls >= calls {
                break;
            }
            self.dispatch()?;
        }
        Ok(())
    }

    fn dispatch(&mut self) -> Result<(), Failure> {
        self.event_loop
            .dispatch(Some(Duration::ZERO), &mut self.calls)?;
        Ok(())
    }

    /// Adds the time since then to what was measured.
    fn stop(&mut self, began: Instant) {
        self.measured += began.elapsed();
    }

    /// Puts so many pings into the loop.
    fn insert_pings(&self, size: u32) -> Result<Vec<Ping>, Failure> {
        (0..size).map(|_| self.insert_ping()).collect()
    }

    fn insert_ping(&self) -> Result<Ping, Failure> {
        let (ping, source) = make_ping().map_err(|error| format!("making a ping: {error}"))?;
        self.handle.insert_source(source, rung)?;
        Ok(ping)
    }

    /// Arms so many timers that are far from due, and answers from which moment on.
    fn insert_far_timers(&self, size: u32) -> Result<Instant, Failure> {
        let far = Instant::now() + FAR;
        self.insert_timers(size, far)?;
        Ok(far)
    }

    /// Arms so many timers, for the scattered moments from this one on.
    fn insert_timers(&self, size: u32, from: Instant) -> Result<(), Failure> {
        for number in 0..size {
            self.insert_timer(scatter(from, number))?;
        }
        Ok(())
    }

    fn insert_timer(&self, deadline: Instant) -> Result<RegistrationToken, Failure> {
        let timer = Timer::from_deadline(deadline);
        Ok(self.handle.insert_source(timer, count_call)?)
    }

    /// Puts so many sockets into the loop, each with a byte to be read: their peers.
    fn insert_sockets(&self, size: u32) -> Result<Vec<UnixStream>, Failure> {
        (0..size).map(|_| self.insert_socket()).collect()
    }

    fn insert_socket(&self) -> Result<UnixStream, Failure> {
        let (socket, mut peer) =
            UnixStream::pair().map_err(|error| format!("making sockets: {error}"))?;
        socket.set_nonblocking(true)?;
        peer.write_all(b"x")?;
        let source = Generic::new(socket, Interest::READ, Mode::Level);
        self.handle.insert_source(source, ready)?;
        Ok(peer)
    }
}

fn rung(_: (), _: &mut (), calls: &mut u64) {
    *calls += 1;
}

fn count_call(_deadline: Instant, _: &mut (), calls: &mut u64) -> TimeoutAction {
    *calls += 1;
    TimeoutAction::Drop
}

/// It reads nothing, so the socket stays readable.
fn ready(_: Readiness, _: &mut UnixStream, calls: &mut u64) -> io::Result<PostAction> {
    *calls += 1;
    Ok(PostAction::Continue)
}

/// Returns once the clock shows this moment or a later one.
fn come_to(moment: Instant) {
    while Instant::now() < moment {
        hint::spin_loop();
    }
}

/// The moment of this number among 2^20 that are a nanosecond apart, in an order that goes to and fro.
fn scatter(from: Instant, number: u32) -> Instant {
    from + Duration::from_nanos(u64::from(number) * 489_905 % SCATTER)
}
