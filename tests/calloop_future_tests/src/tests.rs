use calloop::channel::ChannelError;
use calloop::futures::{ExecutorDestroyed, ExecutorError, ScheduleError};
use calloop::ping::PingError;
use desk::{Act, plays};
use std::test::Fail;

mod blocked;
mod desk;
mod heirs;
mod job;
mod machine;
mod memory;
mod moved;
mod passing;
mod places;
mod streams;
mod threads;
mod timeouts;

// What a test does at a new desk, and what is to come of it.
const CASES: &[(&str, &[Act<'static>])] = &[
    (
        "a_turn_polls_1024_futures_and_the_next_one_the_last",
        &[
            Act::Make,
            Act::Insert,
            Act::ScheduleAll(0, 1_025),
            Act::SaysAll(None, 0, 1_024),
            Act::Says(None, &[1_024]),
            Act::Says(Some(100), &[]),
            Act::Asked(&[Some(0), Some(0), Some(100)]),
            Act::Names(true),
        ],
    ),
    (
        "after_exactly_1024_futures_the_next_dispatch_does_not_wait",
        &[
            Act::Make,
            Act::Insert,
            Act::ScheduleAll(0, 1_024),
            Act::SaysAll(Some(0), 0, 1_024),
            Act::Says(Some(100), &[]),
            Act::Asked(&[Some(0), Some(0)]),
        ],
    ),
    (
        "a_future_that_is_scheduled_after_a_dispatch_comes_in_the_next_one",
        &[
            Act::Make,
            Act::Insert,
            Act::Says(Some(0), &[]),
            Act::Schedule(&[42]),
            Act::Says(Some(100), &[42]),
            Act::Says(Some(100), &[]),
            Act::Asked(&[Some(0), Some(0), Some(100)]),
        ],
    ),
    (
        "results_come_in_the_order_in_which_futures_were_scheduled",
        &[
            Act::Make,
            Act::Schedule(&[3, 1]),
            Act::Clone,
            Act::Schedule(&[2]),
            Act::Insert,
            Act::Says(Some(100), &[3, 1, 2]),
            Act::Asked(&[Some(0)]),
        ],
    ),
    (
        "a_future_that_wakes_itself_is_polled_once_more_behind_the_others",
        &[
            Act::Make,
            Act::Insert,
            Act::Yield(2, 5),
            Act::Schedule(&[6]),
            Act::Says(Some(100), &[6, 5]),
            Act::Says(Some(100), &[]),
            Act::Asked(&[Some(0), Some(100)]),
        ],
    ),
    (
        "a_future_that_is_woken_twice_is_polled_once_more",
        &[
            Act::Make,
            Act::Insert,
            Act::Wait(7),
            Act::Says(Some(0), &[]),
            Act::Polled(1),
            Act::Wake(2),
            Act::Says(Some(100), &[7]),
            Act::Polled(2),
            Act::Wake(1),
            Act::Says(Some(100), &[]),
            Act::Polled(2),
            Act::Asked(&[Some(0), Some(0), Some(100)]),
        ],
    ),
    (
        "each_of_two_futures_of_an_executor_is_woken_for_itself",
        &[
            Act::Make,
            Act::Insert,
            Act::Wait(7),
            Act::Other,
            Act::Wait(8),
            Act::Says(Some(0), &[]),
            Act::Wake(1),
            Act::Other,
            Act::Wake(1),
            Act::Says(Some(100), &[8, 7]),
            Act::Polled(2),
            Act::Other,
            Act::Polled(2),
            Act::Asked(&[Some(0), Some(0)]),
        ],
    ),
    (
        "what_is_woken_while_its_executor_is_disabled_is_polled_once_that_is_enabled",
        &[
            Act::Make,
            Act::Insert,
            Act::Wait(7),
            Act::Says(Some(0), &[]),
            Act::Disable,
            Act::Wake(1),
            Act::Schedule(&[8]),
            Act::Says(Some(100), &[]),
            Act::Enable,
            Act::Says(Some(100), &[7, 8]),
            Act::Asked(&[Some(0), Some(100), Some(0)]),
        ],
    ),
    (
        "an_executor_without_schedulers_goes_on",
        &[
            Act::Make,
            Act::Insert,
            Act::Wait(7),
            Act::Says(Some(0), &[]),
            Act::Drop,
            Act::Says(Some(100), &[]),
            Act::Wake(1),
            Act::Says(Some(100), &[7]),
            Act::Asked(&[Some(0), Some(100), Some(0)]),
            Act::Names(true),
        ],
    ),
    (
        "an_executor_that_is_removed_drops_its_futures_and_takes_no_more",
        &[
            Act::Make,
            Act::Insert,
            Act::Fall,
            Act::Wait(7),
            Act::Says(Some(0), &[]),
            Act::Fallen(0),
            Act::Fall,
            Act::Remove,
            Act::Fallen(2),
            Act::Refused,
            Act::Wake(1),
            Act::Says(Some(100), &[]),
            Act::Asked(&[Some(0), Some(100)]),
        ],
    ),
    (
        "an_executor_that_never_was_in_a_loop_drops_its_futures",
        &[
            Act::Make,
            Act::Fall,
            Act::Fallen(0),
            Act::Leave,
            Act::Fallen(1),
            Act::Refused,
        ],
    ),
];

#[test]
fn each_case_goes_as_it_is_to(rt: HostRuntime) {
    for (name, acts) in CASES {
        assert_eq!(rt; plays(&rt, rt.alloc(), acts), None, "{name}");
    }
}

#[test]
fn the_errors_show_their_texts(rt: HostRuntime) -> Result<(), Fail> {
    let destroyed: ScheduleError<u32> = ScheduleError::Destroyed(ExecutorDestroyed);
    let gone = format!(in rt.alloc(); "{ExecutorDestroyed}|{destroyed}|{destroyed:?}")?;
    assert_eq!(rt;
        gone.as_str(),
        "the executor was destroyed|the executor was destroyed|Destroyed(ExecutorDestroyed)"
    );
    let refused = ScheduleError::OutOfMemory(5u32);
    let memory = format!(in rt.alloc(); "{refused}|{refused:?}")?;
    assert_eq!(rt; memory.as_str(), "out of memory|OutOfMemory(..)");
    let cause = ExecutorError::NewFutureError(ChannelError(PingError::OutOfMemory));
    let wake = ExecutorError::WakeError(PingError::OutOfMemory);
    let turns = format!(in rt.alloc(); "{cause}|{wake}")?;
    assert_eq!(rt;
        turns.as_str(),
        "error adding new futures: out of memory|error processing wake events: out of memory"
    );
    Ok(())
}
