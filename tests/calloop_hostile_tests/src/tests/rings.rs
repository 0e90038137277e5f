//! Rings by chance from three threads over a scripted poller, beside a plain model of what each dispatch has to call.
use calloop::ping::{Ping, make_ping};
use calloop::{Choice, Dispatcher, EventDispatcher, Here, On, PingSource, ScriptLoop, Sources};
use calloop_script::{ScriptClock, ScriptPoller};
use std::alloc::Global;
use std::sync::atomic::{AtomicU32, Ordering};
use std::sync::{Arc, Wait};
use std::test::Fail;
use std::thread::{JoinHandle, Threads, spawn};
use std::time::Duration;

const PINGS: usize = 6;

const THREADS: u64 = 3;

const ROUNDS: u32 = 150;

#[test]
fn what_was_rung_before_a_dispatch_is_called_in_it_once(rt: HostRuntime) -> Result<(), Fail> {
    for seed in 0..8u64 {
        let wrong = first_wrong_round::<Rung<HostRuntime>, HostRuntime>(&rt, rt.alloc(), seed);
        assert_eq!(rt; wrong, Some(None));
    }
    Ok(())
}

/// Of each ping whether it was rung, or how often it was called.
type Each<T> = [T; PINGS];

/// Counts the calls of its ping.
#[derive(Drop)]
struct Calls(usize);

impl On<(), Each<u32>, ()> for Calls {
    fn on(&mut self, _ring: (), calls: &mut Each<u32>) {
        if let Some(calls) = calls.get_mut(self.0) {
            *calls = calls.saturating_add(1);
        }
    }
}

type Rung<R> = Sources<Dispatcher<PingSource<R>, Calls>, Each<u32>>;

/// A number that threads raise and wait for.
type Number = Arc<AtomicU32, Global>;

/// What a thread rings in a round: before the dispatch, and beside it.
#[derive(Clone, Copy)]
struct Rings {
    before: Each<bool>,
    beside: Each<bool>,
}

/// What a thread of this number rings in each round, by chance.
#[derive(Drop)]
struct Script {
    state: u64,
}

impl Script {
    fn new(seed: u64, thread: u64) -> Script {
        Script {
            state: seed.wrapping_mul(THREADS).wrapping_add(thread),
        }
    }

    // By a linear congruential generator, one time in three.
    fn is_rung(&mut self) -> bool {
        self.state = self
            .state
            .wrapping_mul(6_364_136_223_846_793_005)
            .wrapping_add(1_442_695_040_888_963_407);
        (self.state >> 33).checked_rem(3) == Some(0)
    }

    fn chosen(&mut self) -> Each<bool> {
        let mut chosen = [false; PINGS];
        for is_chosen in &mut chosen {
            *is_chosen = self.is_rung();
        }
        chosen
    }

    fn next_round(&mut self) -> Rings {
        Rings {
            before: self.chosen(),
            beside: self.chosen(),
        }
    }
}

// The first round in which a ping isn't called as the model says. None if memory is short, or a thread can't be had.
fn first_wrong_round<D, R>(rt: &R, alloc: Global, seed: u64) -> Option<Option<u32>>
where
    D: EventDispatcher<ScriptPoller, ScriptClock, R, Data = Each<u32>>,
    D: Choice<PingSource<R>, Calls, Here>,
    R: Threads + Wait + Clone + Drop + Send + Sync + 'static,
{
    let mut event_loop: ScriptLoop<D, R> = ScriptLoop::with_script(rt, alloc).ok()?;
    let mut pings = Vec::new(alloc);
    for number in 0..PINGS {
        let (ping, source) = make_ping(rt, alloc).ok()?;
        let held = D::hold(Dispatcher::new(source, Calls(number)));
        event_loop.handle().register_dispatcher(held).ok()?;
        pings.push(ping).ok()?;
    }
    let opened = Arc::new(alloc, AtomicU32::new(0)).ok()?;
    let ready = Arc::new(alloc, AtomicU32::new(0)).ok()?;
    let mut children: Vec<JoinHandle<()>> = Vec::new(alloc);
    for thread in 0..THREADS {
        let again = clones(alloc, &pings)?;
        let (opened, ready) = (Arc::try_clone(&opened).ok()?, Arc::try_clone(&ready).ok()?);
        let script = Script::new(seed, thread);
        let of_thread = rt.clone().ok()?;
        let child = spawn(
            rt,
            move || rings(&of_thread, &again, script, &opened, &ready),
        )
        .ok()?;
        children.push(child).ok()?;
    }
    let mut model = Model::new(seed);
    let mut wrong = None;
    for round in 1..=ROUNDS {
        opened.store(round, Ordering::SeqCst);
        waits_for(rt, &ready, round.saturating_mul(THREADS as u32));
        let mut calls = [0; PINGS];
        event_loop
            .dispatch(rt, Some(Duration::ZERO), &mut calls)
            .ok()?;
        if !model.is_right(&calls) && wrong.is_none() {
            wrong = Some(round);
        }
    }
    for child in children {
        child.join(rt);
    }
    Some(wrong)
}

fn clones<R: Wait + Clone + Drop>(alloc: Global, pings: &[Ping<R>]) -> Option<Vec<Ping<R>>> {
    let mut again = Vec::new(alloc);
    for ping in pings {
        again.push(ping.clone().ok()?).ok()?;
    }
    Some(again)
}

// Waits until the number is so much at least.
fn waits_for<R: Threads + Wait>(rt: &R, number: &AtomicU32, least: u32) {
    for _ in rt.forever() {
        if number.load(Ordering::SeqCst) >= least {
            return;
        }
        std::thread::yield_now();
    }
}

// In each round it rings, says so, and rings more.
fn rings<R: Threads + Wait + Drop>(
    rt: &R,
    pings: &[Ping<R>],
    mut script: Script,
    opened: &AtomicU32,
    ready: &AtomicU32,
) {
    for round in 1..=ROUNDS {
        waits_for(rt, opened, round);
        let chosen = script.next_round();
        rings_these(pings, &chosen.before);
        ready.fetch_add(1, Ordering::SeqCst);
        rings_these(pings, &chosen.beside);
    }
}

fn rings_these<R: Wait + Drop>(pings: &[Ping<R>], chosen: &Each<bool>) {
    for (ping, is_chosen) in pings.iter().zip(chosen.iter()) {
        if *is_chosen {
            let _receipt = ping.ping();
        }
    }
}

/// What was rung by all threads, in this round and beside the dispatch of the last one, and what that called.
#[derive(Drop)]
struct Model {
    scripts: [Script; THREADS as usize],
    beside: Each<bool>,
    called: Each<bool>,
}

impl Model {
    fn new(seed: u64) -> Model {
        Model {
            scripts: [
                Script::new(seed, 0),
                Script::new(seed, 1),
                Script::new(seed, 2),
            ],
            beside: [false; PINGS],
            called: [false; PINGS],
        }
    }

    // Whether a dispatch called each ping once that was rung before it and not called since, and of the others only those that were rung
    // beside it or beside the last one.
    fn is_right(&mut self, calls: &Each<u32>) -> bool {
        let (mut before, mut beside) = ([false; PINGS], [false; PINGS]);
        for script in &mut self.scripts {
            let chosen = script.next_round();
            joins(&mut before, &chosen.before);
            joins(&mut beside, &chosen.beside);
        }
        let mut is_right = true;
        for (number, calls) in calls.iter().enumerate() {
            let must = before[number] || (self.beside[number] && !self.called[number]);
            let may = must || self.beside[number] || beside[number];
            is_right &= *calls <= 1 && (*calls == 1 || !must) && (*calls == 0 || may);
            self.called[number] = *calls == 1;
        }
        self.beside = beside;
        is_right
    }
}

fn joins(all: &mut Each<bool>, more: &Each<bool>) {
    for (one, other) in all.iter_mut().zip(more.iter()) {
        *one |= *other;
    }
}
