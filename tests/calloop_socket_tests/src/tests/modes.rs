//! How often a socket hears of what it is ready for.
use super::desk::{Act, GOES_ON, KEY, READ_LEVEL, SECOND, plays};
use calloop::sys::Watched;
use calloop::{Interest, Mode};
use calloop_script::ScriptCall::{Add, Delete, Modify};

const READ_ONCE: Watched = Watched {
    interest: Interest::READ,
    mode: Mode::OneShot,
};

const READ_EDGE: Watched = Watched {
    interest: Interest::READ,
    mode: Mode::Edge,
};

const BOTH_EDGE: Watched = Watched {
    interest: Interest::BOTH,
    mode: Mode::Edge,
};

// What a test does at a new desk, and what is to come of it.
const CASES: &[(&str, &[Act<'static>])] = &[
    (
        "level_tells_the_poller_again_after_each_call",
        &[
            Act::Socket(Interest::READ, Mode::Level, GOES_ON),
            Act::Hears(KEY, &[1]),
            Act::Hears(KEY, &[1]),
            Act::Called(&[
                Add(1, KEY, READ_LEVEL),
                Modify(1, KEY, READ_LEVEL),
                Modify(1, KEY, READ_LEVEL),
            ]),
        ],
    ),
    (
        "two_events_of_one_key_in_an_answer_are_two_calls",
        &[
            Act::Socket(Interest::READ, Mode::Edge, GOES_ON),
            Act::HearsAll(KEY, 2),
            Act::Says(&[]),
        ],
    ),
    (
        "each_of_1024_events_in_an_answer_is_a_call",
        &[
            Act::Socket(Interest::READ, Mode::Edge, GOES_ON),
            Act::HearsAll(KEY, 1_024),
            Act::Says(&[]),
        ],
    ),
    (
        "one_shot_hears_one_event_until_it_is_updated",
        &[
            Act::Socket(Interest::READ, Mode::OneShot, GOES_ON),
            Act::Hears(KEY, &[1]),
            Act::Hears(KEY, &[]),
            Act::Update(0),
            Act::Hears(KEY, &[1]),
            Act::Hears(KEY, &[]),
            Act::Called(&[Add(1, KEY, READ_ONCE), Modify(1, KEY, READ_ONCE)]),
        ],
    ),
    (
        "one_shot_hears_again_after_a_new_registration",
        &[
            Act::Socket(Interest::READ, Mode::OneShot, GOES_ON),
            Act::Hears(KEY, &[1]),
            Act::Disable(0),
            Act::Hears(KEY, &[]),
            Act::Enable(0),
            Act::Hears(KEY, &[1]),
        ],
    ),
    (
        "one_shot_that_fails_has_heard_its_event",
        &[
            Act::Socket(Interest::READ, Mode::OneShot, None),
            Act::Script(KEY),
            Act::Breaks(&[1]),
            Act::Hears(KEY, &[]),
        ],
    ),
    (
        "edge_leaves_the_poller_alone",
        &[
            Act::Socket(Interest::READ, Mode::Edge, GOES_ON),
            Act::Hears(KEY, &[1]),
            Act::Hears(KEY, &[1]),
            Act::Called(&[Add(1, KEY, READ_EDGE)]),
        ],
    ),
    (
        "an_empty_interest_is_in_no_poller",
        &[
            Act::Socket(Interest::EMPTY, Mode::Level, GOES_ON),
            Act::Called(&[]),
            Act::SetInterest(0, Interest::READ),
            Act::Update(0),
            Act::SetInterest(0, Interest::EMPTY),
            Act::Update(0),
            Act::Remove(0),
            Act::Called(&[Add(1, KEY, READ_LEVEL), Delete(1)]),
        ],
    ),
    (
        "an_update_takes_up_the_interest_that_was_set",
        &[
            Act::Socket(Interest::READ, Mode::Edge, GOES_ON),
            Act::SetInterest(0, Interest::BOTH),
            Act::Called(&[Add(1, KEY, READ_EDGE)]),
            Act::Update(0),
            Act::Called(&[Add(1, KEY, READ_EDGE), Modify(1, KEY, BOTH_EDGE)]),
        ],
    ),
    (
        "one_socket_leaves_the_key_of_another_alone",
        &[
            Act::Socket(Interest::READ, Mode::Edge, GOES_ON),
            Act::Socket(Interest::READ, Mode::Edge, GOES_ON),
            Act::Remove(0),
            Act::Hears(SECOND, &[1]),
        ],
    ),
    (
        "a_socket_that_came_65536_times_again_hears_nothing_of_its_first_key",
        &[
            Act::Socket(Interest::READ, Mode::Level, GOES_ON),
            Act::ComesAgain(0, 65_535),
            Act::Hears(KEY, &[]),
            Act::ComesAgain(0, 1),
            Act::Hears(KEY, &[]),
            Act::IsAt(0, 0, 65_536),
        ],
    ),
    (
        "an_event_of_another_token_calls_nothing",
        &[
            Act::Socket(Interest::READ, Mode::Level, GOES_ON),
            Act::Hears(KEY + 1, &[]),
            Act::Hears(1 << 16, &[]),
            Act::Hears(SECOND, &[]),
            Act::Called(&[Add(1, KEY, READ_LEVEL)]),
        ],
    ),
];

#[test]
fn each_case_of_modes_goes_as_it_is_to(rt: HostRuntime) {
    for (name, acts) in CASES {
        assert_eq!(rt; plays(&rt, rt.alloc(), acts), None, "{name}");
    }
}
