//! Sockets as sources.
use calloop::{
    Dispatcher, EventDispatcher, Generic, Here, Interest, LoopHold, MioPoller, Mode, NoIoDrop,
    OnWith, PostAction, Readiness, Result, Sources, SystemClock, SystemLoop,
};
use mio::net::UnixStream;
use std::alloc::Global;
use std::io::{self, Read, Write};
use std::net::Net;
use std::sync::Wait;
use std::test::Fail;
use std::time::{Clock as MachineClock, Duration};

#[test]
fn the_bytes_of_a_socket_are_counted(rt: HostRuntime) -> std::result::Result<(), Fail> {
    let count = count::<Held, HostRuntime>(&rt, rt.alloc());
    assert!(rt; count.is_ok_and(|count| count == 5));
    Ok(())
}

/// Counts the bytes that come.
#[derive(Drop)]
struct Counts;

impl OnWith<Readiness, NoIoDrop<UnixStream>, usize, io::Result<PostAction>> for Counts {
    fn on_with(
        &mut self,
        _readiness: Readiness,
        io: &mut NoIoDrop<UnixStream>,
        count: &mut usize,
    ) -> io::Result<PostAction> {
        let mut bytes = [0u8; 64];
        let read = io.get_mut().read(&mut bytes)?;
        if read == 0 {
            return Ok(PostAction::Remove);
        }
        *count = count.saturating_add(read);
        Ok(PostAction::Continue)
    }
}

type Held = Sources<Dispatcher<Generic<UnixStream>, Counts>, usize>;

type Machine<R> = MioPoller<SystemClock<R>>;

fn count<D, R>(rt: &R, alloc: Global) -> Result<usize>
where
    D: EventDispatcher<Machine<R>, SystemClock<R>, R, Data = usize, Idle = ()>,
    D: LoopHold<Generic<UnixStream>, Counts, Machine<R>, SystemClock<R>, R, Here>,
    R: Net + MachineClock + Wait + Clone + Drop,
{
    let mut event_loop: SystemLoop<D, R> = SystemLoop::system(rt, alloc)?;
    let (stream, mut other) = UnixStream::pair(rt)?;
    other.write_all(b"hello")?;

    let socket = Generic::new(stream, Interest::READ, Mode::Level);
    event_loop.handle().insert_source(socket, Counts)?;

    let mut count = 0;
    event_loop.dispatch(rt, Some(Duration::from_secs(1)), &mut count)?;
    drop(other);
    event_loop.dispatch(rt, Some(Duration::from_secs(1)), &mut count)?;
    Ok(count)
}
