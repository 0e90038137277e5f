//! The room for an adapter's mark: one that left, or was refused, has given it up.
use calloop::io::make_ends;
use calloop::{Adapter, Async, Dispatch, Error, Poll, RegistrationToken, Result, TokenFactory};
use calloop_script::{ScriptClock, ScriptIo, ScriptPoller};
use std::alloc::Global;
use std::sync::Wait;

#[test]
fn an_adapter_that_comes_again_takes_no_memory(rt: HostRuntime) {
    // If it can't be set up there is nothing to try.
    let Ok(mut desk) = Desk::new(&rt, rt.alloc()) else {
        return;
    };
    if !desk.comes_and_goes() {
        return;
    }
    for _ in 0..100u32 {
        assert!(rt; desk.comes_and_goes());
    }
}

#[test]
fn a_refusal_for_want_of_tokens_takes_no_memory(rt: HostRuntime) {
    let Ok(mut desk) = Desk::new(&rt, rt.alloc()) else {
        return;
    };
    let mut spent = factory();
    for _ in 0..=u16::MAX {
        let _token = spent.token();
    }
    if desk.registers(&mut spent) != Err(true) {
        return;
    }
    for _ in 0..100u32 {
        assert!(rt; desk.registers(&mut spent) == Err(true));
    }
}

/// Both ends of an adapter, and the poll that it comes into.
#[derive(Drop)]
struct Desk<R: Wait + Drop> {
    poll: Poll<ScriptPoller, ScriptClock, R>,
    adapter: Adapter<ScriptIo, R>,
    io: Async<ScriptIo, R>,
}

fn factory() -> TokenFactory {
    TokenFactory::new(RegistrationToken::new(0, 0))
}

impl<R: Wait + Clone + Drop> Desk<R> {
    fn new(rt: &R, alloc: Global) -> Result<Desk<R>> {
        let poller = ScriptPoller::new(alloc)?;
        let clock = poller.clock()?;
        let poll = Poll::new(rt.clone()?, alloc, poller, clock)?;
        match make_ends(rt, alloc, ScriptIo { number: 1 }) {
            Ok((adapter, io, socket)) => {
                io.put(socket);
                Ok(Desk { poll, adapter, io })
            }
            Err(refused) => Err(refused.error),
        }
    }

    // Whether it was refused for want of tokens, if it was.
    fn registers(&mut self, factory: &mut TokenFactory) -> std::result::Result<(), bool> {
        let Desk {
            poll,
            adapter,
            io: _,
        } = self;
        let mut failure = Error::InvalidToken;
        match Dispatch::<ScriptPoller, ScriptClock, R, (), ()>::register(
            adapter,
            poll,
            factory,
            &mut failure,
        ) {
            Ok(()) => Ok(()),
            Err(_) => match failure {
                Error::TooManyTokens => Err(true),
                _ => Err(false),
            },
        }
    }

    // It comes in, and is given back.
    fn comes_and_goes(&mut self) -> bool {
        if self.registers(&mut factory()).is_err() || self.io.begin_leaving().is_none() {
            return false;
        }
        let Desk {
            poll,
            adapter,
            io: _,
        } = self;
        let mut failure = Error::InvalidToken;
        Dispatch::<ScriptPoller, ScriptClock, R, (), ()>::unregister(
            adapter,
            poll,
            &mut failure,
        ).is_ok()
    }
}
