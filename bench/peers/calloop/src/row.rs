//! What rows there are.

/// How many events a dispatch takes from the poller at most: calloop has room for that many on its stack.
const EVENTS: u64 = 32;

#[derive(Clone, Copy)]
pub enum Row {
    RingAndDispatch,
    TimersFired,
    TimersCancelled,
    InsertAndRemove,
    IdleDispatch,
    ReadableSockets,
}

const ROWS: [Row; 6] = [
    Row::RingAndDispatch,
    Row::TimersFired,
    Row::TimersCancelled,
    Row::InsertAndRemove,
    Row::IdleDispatch,
    Row::ReadableSockets,
];

impl Row {
    pub fn by_name(name: &str) -> Option<Row> {
        ROWS.into_iter().find(|row| row.name() == name)
    }

    pub fn name(self) -> &'static str {
        match self {
            Row::RingAndDispatch => "ring_and_dispatch",
            Row::TimersFired => "timers_fired",
            Row::TimersCancelled => "timers_cancelled",
            Row::InsertAndRemove => "insert_and_remove",
            Row::IdleDispatch => "idle_dispatch",
            Row::ReadableSockets => "readable_sockets",
        }
    }

    /// By how many operations the time is divided.
    pub fn operations(self, count: u32, size: u32) -> u64 {
        match self {
            Row::TimersFired => u64::from(count) * u64::from(size),
            _ => u64::from(count),
        }
    }

    /// How many callbacks have to be called.
    pub fn calls(self, count: u32, size: u32) -> u64 {
        match self {
            Row::RingAndDispatch => u64::from(count),
            Row::TimersFired => u64::from(count) * u64::from(size),
            Row::ReadableSockets => socket_dispatches(count, size) * calls_of_a_dispatch(size),
            Row::TimersCancelled | Row::InsertAndRemove | Row::IdleDispatch => 0,
        }
    }
}

/// How many dispatches call for this many readable sockets, so often. The last one may call for some more.
pub fn socket_dispatches(count: u32, size: u32) -> u64 {
    let each = calls_of_a_dispatch(size);
    (u64::from(count) * u64::from(size) + each - 1) / each
}

fn calls_of_a_dispatch(size: u32) -> u64 {
    u64::from(size).min(EVENTS)
}
