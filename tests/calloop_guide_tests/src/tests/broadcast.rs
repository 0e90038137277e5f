//! Sockets that are in the loop and in the data.
use calloop::{
    Dispatcher, EventDispatcher, Generic, Here, Interest, LoopHold, MioPoller, Mode, NoIoDrop,
    OnWith, PostAction, Readiness, Result, Sources, SystemClock, SystemLoop,
};
use mio::net::UnixStream;
use std::alloc::Global;
use std::io::{self, Read, Write};
use std::net::Net;
use std::rc::Rc;
use std::sync::Wait;
use std::test::Fail;
use std::time::{Clock as MachineClock, Duration};

#[test]
fn what_one_client_says_goes_to_the_others(rt: HostRuntime) -> std::result::Result<(), Fail> {
    let heard = heard::<Held, HostRuntime>(&rt, rt.alloc());
    assert!(rt; heard.is_ok_and(|heard| heard == [0, 5, 5]));
    Ok(())
}

/// What a dispatch lends: the sockets of all clients, which are in the loop, too.
#[derive(Drop)]
struct Chat {
    clients: Vec<Rc<UnixStream>>,
}

/// Sends what the client of this place says to all the others.
#[derive(Drop)]
struct Tells {
    place: usize,
}

impl OnWith<Readiness, NoIoDrop<Rc<UnixStream>>, Chat, io::Result<PostAction>> for Tells {
    fn on_with(
        &mut self,
        _readiness: Readiness,
        io: &mut NoIoDrop<Rc<UnixStream>>,
        chat: &mut Chat,
    ) -> io::Result<PostAction> {
        let mut bytes = [0u8; 64];
        let read = (&**io.get_mut()).read(&mut bytes)?;
        if read == 0 {
            return Ok(PostAction::Remove);
        }
        for (place, client) in chat.clients.iter().enumerate() {
            if place != self.place {
                // A client that fails is told of by its own socket.
                let _sent = (&**client).write_all(&bytes[..read]);
            }
        }
        Ok(PostAction::Continue)
    }
}

type Held = Sources<Dispatcher<Generic<Rc<UnixStream>>, Tells>, Chat>;

type Machine<R> = MioPoller<SystemClock<R>>;

// How many bytes each of three clients hears, of which the first one says five.
fn heard<D, R>(rt: &R, alloc: Global) -> Result<[usize; 3]>
where
    D: EventDispatcher<Machine<R>, SystemClock<R>, R, Data = Chat, Idle = ()>,
    D: LoopHold<Generic<Rc<UnixStream>>, Tells, Machine<R>, SystemClock<R>, R, Here>,
    R: Net + MachineClock + Wait + Clone + Drop,
{
    let mut event_loop: SystemLoop<D, R> = SystemLoop::system(rt, alloc)?;
    let mut chat = Chat {
        clients: Vec::new(alloc),
    };
    let mut ends = Vec::new(alloc);
    for place in 0..3 {
        let (stream, end) = UnixStream::pair(rt)?;
        ends.push(end)?;

        let stream = Rc::new(alloc, stream)?;
        chat.clients.push(stream.clone()?)?;
        let socket = Generic::new(stream, Interest::READ, Mode::Level);
        event_loop.handle().insert_source(socket, Tells { place })?;
    }
    if let Some(first) = ends.first_mut() {
        first.write_all(b"hello")?;
    }
    event_loop.dispatch(rt, Some(Duration::from_secs(1)), &mut chat)?;
    let mut heard = [0; 3];
    for (heard, end) in heard.iter_mut().zip(ends.iter_mut()) {
        let mut bytes = [0u8; 64];
        *heard = end.read(&mut bytes).unwrap_or(0);
    }
    Ok(heard)
}
