//! Pipes as sources: a descriptor that is no socket, in each of the three modes.
use calloop::generic::{Generic, NoIoDrop};
use calloop::{
    Dispatcher, EventDispatcher, Here, Hold, Interest, MioPoller, Mode, OnWith, PostAction,
    Readiness, Requests, Sources, SystemClock, SystemLoop,
};
use std::alloc::Global;
use std::fs::Files;
use std::io::{self, PipeReader, Read, Write};
use std::net::Net;
use std::process::Abort;
use std::sync::Wait;
use std::time::{Clock as MachineClock, Duration};

#[test]
fn a_pipe_by_level_is_told_of_as_long_as_a_byte_is_unread(rt: HostRuntime) {
    let calls = hears::<Held, HostRuntime>(&rt, rt.alloc(), Mode::Level, false);
    assert_eq!(rt; calls, 3);
}

#[test]
fn a_pipe_by_edge_is_told_of_once_for_a_byte(rt: HostRuntime) {
    let calls = hears::<Held, HostRuntime>(&rt, rt.alloc(), Mode::Edge, false);
    assert_eq!(rt; calls, 1);
}

#[test]
fn a_pipe_that_hears_once_is_told_of_once(rt: HostRuntime) {
    let calls = hears::<Held, HostRuntime>(&rt, rt.alloc(), Mode::OneShot, false);
    assert_eq!(rt; calls, 1);
}

#[test]
fn a_pipe_by_level_is_told_of_once_if_its_byte_is_read(rt: HostRuntime) {
    let calls = hears::<Held, HostRuntime>(&rt, rt.alloc(), Mode::Level, true);
    assert_eq!(rt; calls, 1);
}

// Counts its calls, and reads one byte in each or none.
#[derive(Drop)]
struct Counts {
    reads: bool,
}

impl OnWith<Readiness, NoIoDrop<PipeReader>, u32, io::Result<PostAction>> for Counts {
    fn on_with(
        &mut self,
        readiness: Readiness,
        pipe: &mut NoIoDrop<PipeReader>,
        calls: &mut u32,
    ) -> io::Result<PostAction> {
        if readiness.readable {
            *calls = calls.saturating_add(1);
        }
        if self.reads {
            let mut byte = [0u8; 1];
            let _read = pipe.get_mut().read(&mut byte)?;
        }
        Ok(PostAction::Continue)
    }
}

type Held = Sources<Dispatcher<Generic<PipeReader>, Counts>, u32>;

// In three dispatches of ten milliseconds behind a byte: how often the callback of the pipe's reading end is called.
fn hears<D, R>(rt: &R, alloc: Global, mode: Mode, reads: bool) -> u32
where
    D: EventDispatcher<MioPoller<SystemClock<R>>, SystemClock<R>, R, Data = u32, Idle = ()>,
    D: Hold<
        Generic<PipeReader>,
        Counts,
        MioPoller<SystemClock<R>>,
        SystemClock<R>,
        R,
        u32,
        Requests<D>,
        Here,
    >,
    R: Files + Net + MachineClock + Wait + Clone + Drop + Abort,
{
    let mut event_loop: SystemLoop<D, R> = SystemLoop::system(rt, alloc).expect(rt, "a loop");
    let (reader, mut writer) = io::pipe(rt).expect(rt, "a pipe");
    let source = Generic::new(reader, Interest::READ, mode);
    let inserted = event_loop.handle().insert_source(source, Counts { reads });
    assert!(rt; inserted.is_ok());
    assert_eq!(rt; writer.write(b"1").ok(), Some(1));
    let mut calls = 0;
    for _ in 0..3u32 {
        let timeout = Some(Duration::from_millis(10));
        assert!(rt; event_loop.dispatch(rt, timeout, &mut calls).is_ok());
    }
    calls
}
