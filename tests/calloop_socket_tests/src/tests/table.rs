use calloop::loop_logic::EventLoop;
use calloop::{Clock, EventDispatcher, Poller};
use std::alloc::Global;
use std::sync::Wait;

// A loop over any sources and any poller. What a call does to a loop whose types are written out costs the prover far more.
#[derive(Drop)]
pub struct Table<D: EventDispatcher<P, C, R>, P: Poller, C: Clock, R: Wait + Drop> {
    pub rt: R,
    pub alloc: Global,
    pub event_loop: EventLoop<D, P, C, R>,
}
