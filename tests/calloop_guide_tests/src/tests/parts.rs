//! Two sources as one.
use calloop::{
    Both, Dispatcher, Instant, Movable, On, PingSource, Result, ScriptLoop, Sources, TimeoutAction,
    Timer, make_ping,
};
use std::alloc::Global;
use std::sync::Wait;
use std::test::Fail;
use std::time::Duration;

#[test]
fn both_parts_say_theirs(rt: HostRuntime) -> std::result::Result<(), Fail> {
    let said = said(&rt, rt.alloc());
    assert!(rt; said.is_ok_and(|said| said.as_str() == "rung\nfive milliseconds\n"));
    Ok(())
}

/// Says a line.
#[derive(Drop)]
struct Says(&'static str);

impl On<(), String, ()> for Says {
    fn on(&mut self, _ring: (), said: &mut String) {
        let _failed = said.push_str(self.0);
    }
}

impl On<Instant, String, TimeoutAction> for Says {
    fn on(&mut self, _deadline: Instant, said: &mut String) -> TimeoutAction {
        let _failed = said.push_str(self.0);
        TimeoutAction::Drop
    }
}

type Held<R> = Sources<
    Both<Dispatcher<Movable<PingSource<R>>, Says>, Dispatcher<Movable<Timer>, Says>>,
    String,
>;

fn said<R: Wait + Clone + Drop>(rt: &R, alloc: Global) -> Result<String> {
    let mut event_loop: ScriptLoop<Held<R>, R> = ScriptLoop::with_script(rt, alloc)?;

    let (ping, source) = make_ping(rt, alloc)?;
    let timer = Timer::from_deadline(Instant::from_millis(5));
    let held: Held<R> = Sources::new(Both {
        first: Dispatcher::new(Movable::from(source), Says("rung\n")),
        second: Dispatcher::new(Movable::from(timer), Says("five milliseconds\n")),
    });
    let token = event_loop.handle().register_dispatcher(held)?;

    let _receipt = ping.ping();
    let mut said = String::new(alloc);
    event_loop.dispatch(rt, Some(Duration::ZERO), &mut said)?;
    event_loop.dispatch(rt, Some(Duration::from_secs(1)), &mut said)?;
    event_loop.handle().disable(&token)?;
    Ok(said)
}
