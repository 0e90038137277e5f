//! Adapters over a scripted poller, and over sockets of the machine.
mod asked;
mod blocking;
mod desk;
mod early;
mod ends;
mod left;
mod looks;
mod memory;
mod pair;
mod peers;
mod polls;
mod strangers;
mod touches;
mod whole;

use calloop_poll::sys::{Interest, Mode, Watched};
use calloop_script::{ScriptCall, ScriptKind};
use desk::{Act, Word, plays};

// An adapter's socket is told of once, until it is registered anew.
const TO_READ: Watched = Watched {
    interest: Interest::READ,
    mode: Mode::OneShot,
};

const TO_WRITE: Watched = Watched {
    interest: Interest::WRITE,
    mode: Mode::OneShot,
};

const ADDED: ScriptCall = ScriptCall::Add(1, 0, TO_READ);

const WRITES: ScriptCall = ScriptCall::Add(1, 0, TO_WRITE);

const MODIFIED: ScriptCall = ScriptCall::Modify(1, 0, TO_READ);

const DELETED: ScriptCall = ScriptCall::Delete(1);

// What a test does at a new desk, and what is to come of it.
const CASES: &[(&str, &[Act<'static>])] = &[
    (
        "an_adapter_calls_no_poller_until_a_poll_waits",
        &[
            Act::Adapt,
            Act::Calls(&[]),
            Act::IsNamedByNoCall,
            Act::Dispatch(&[]),
            Act::Calls(&[]),
        ],
    ),
    (
        "a_poll_that_waits_is_registered_before_the_wait",
        &[
            Act::Adapt,
            Act::Look(1),
            Act::Dispatch(&[]),
            Act::Calls(&[]),
            Act::Answer(true),
            Act::Dispatch(&[]),
            Act::Calls(&[ADDED]),
            Act::Dispatch(&[Word::Ready]),
            Act::Calls(&[ADDED]),
        ],
    ),
    (
        "a_wait_to_write_is_registered_and_answered",
        &[
            Act::Adapt,
            Act::LookToWrite(1),
            Act::Dispatch(&[]),
            Act::Answer(false),
            Act::Dispatch(&[]),
            Act::Calls(&[WRITES]),
            Act::Dispatch(&[Word::Ready]),
        ],
    ),
    (
        "a_second_wait_is_registered_anew",
        &[
            Act::Adapt,
            Act::Look(2),
            Act::Dispatch(&[]),
            Act::Answer(true),
            Act::Dispatch(&[]),
            Act::Dispatch(&[]),
            Act::Answer(true),
            Act::Dispatch(&[]),
            Act::Calls(&[ADDED, MODIFIED]),
            Act::Dispatch(&[Word::Ready, Word::Ready]),
        ],
    ),
    (
        "what_an_event_found_is_taken_once",
        &[
            Act::Adapt,
            Act::Answer(true),
            Act::Dispatch(&[]),
            Act::Look(2),
            Act::Dispatch(&[]),
            Act::Dispatch(&[]),
            Act::Calls(&[ADDED]),
            Act::Answer(true),
            Act::Dispatch(&[]),
            Act::Dispatch(&[Word::Ready, Word::Ready]),
        ],
    ),
    (
        "what_was_found_to_write_is_none_to_read",
        &[
            Act::Adapt,
            Act::Answer(false),
            Act::Dispatch(&[]),
            Act::Look(1),
            Act::Dispatch(&[]),
            Act::Dispatch(&[]),
            Act::Calls(&[ADDED]),
        ],
    ),
    (
        "a_refused_registration_is_answered_once",
        &[
            Act::Adapt,
            Act::Look(2),
            Act::Dispatch(&[]),
            Act::Fail(ScriptKind::Add),
            // The future is woken before the wait, and waits again.
            Act::Dispatch(&[]),
            Act::Calls(&[ADDED]),
            Act::Answer(true),
            Act::Dispatch(&[]),
            Act::Calls(&[ADDED, ADDED]),
            Act::Dispatch(&[Word::Refused, Word::Ready]),
        ],
    ),
    (
        "a_refused_registration_anew_is_answered_once",
        &[
            Act::Adapt,
            Act::Look(2),
            Act::Dispatch(&[]),
            Act::Answer(true),
            Act::Dispatch(&[]),
            Act::Dispatch(&[]),
            Act::Fail(ScriptKind::Modify),
            Act::Dispatch(&[Word::Ready, Word::Refused]),
            Act::Calls(&[ADDED, MODIFIED]),
        ],
    ),
    (
        "a_dropped_adapter_leaves_with_the_next_dispatch",
        &[
            Act::Adapt,
            Act::Look(1),
            Act::Dispatch(&[]),
            Act::Answer(true),
            Act::Dispatch(&[]),
            Act::Dispatch(&[Word::Ready]),
            Act::Drop,
            Act::Calls(&[ADDED]),
            Act::Dispatch(&[]),
            Act::Calls(&[ADDED, DELETED]),
            Act::NextSlot(0),
        ],
    ),
    (
        "an_adapter_that_is_given_back_hands_its_socket_back",
        &[
            Act::Adapt,
            Act::Look(1),
            Act::Dispatch(&[]),
            Act::Answer(true),
            Act::Dispatch(&[]),
            Act::Dispatch(&[Word::Ready]),
            Act::IntoInner,
            Act::Calls(&[ADDED, DELETED]),
            Act::NextSlot(0),
            Act::Dispatch(&[]),
        ],
    ),
    (
        "an_adapter_that_the_poller_keeps_stays",
        &[
            Act::Adapt,
            Act::Look(1),
            Act::Dispatch(&[]),
            Act::Answer(true),
            Act::Dispatch(&[]),
            Act::Dispatch(&[Word::Ready]),
            Act::KeptByFault,
            Act::Calls(&[ADDED, DELETED]),
            Act::IntoInner,
            Act::Calls(&[ADDED, DELETED, DELETED]),
            Act::NextSlot(0),
        ],
    ),
    (
        "an_adapter_that_is_given_back_wakes_its_loop_no_more",
        &[
            Act::Adapt,
            Act::IsWoken(true),
            Act::Dispatch(&[]),
            Act::IsWoken(false),
            Act::IntoInner,
            Act::IsWoken(false),
        ],
    ),
    (
        "an_adapter_that_left_without_its_socket_wakes_its_loop_no_more",
        &[
            Act::Adapt,
            Act::Dispatch(&[]),
            Act::TakenOut,
            Act::IsWoken(false),
        ],
    ),
    (
        "an_adapter_without_its_socket_leaves_and_hands_none_back",
        &[Act::Adapt, Act::TakenOut, Act::Calls(&[]), Act::NextSlot(0)],
    ),
];

#[test]
fn each_case_goes_as_it_is_to(rt: HostRuntime) {
    for (name, acts) in CASES {
        assert_eq!(rt; plays(&rt, rt.alloc(), acts), None, "{name}");
    }
}
