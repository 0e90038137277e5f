//! What is refused for a socket, and what stays then.
use super::desk::{Act, GOES_ON, KEY, READ_LEVEL, SECOND, plays};
use calloop::generic::Generic;
use calloop::sys::Watched;
use calloop::{Interest, Mode};
use calloop_script::ScriptCall::{Add, Delete, Modify};
use calloop_script::{ScriptIo, ScriptKind};
use std::io;
use std::io::ErrorKind;

const WRITE_LEVEL: Watched = Watched {
    interest: Interest::WRITE,
    mode: Mode::Level,
};

// What a test does at a new desk, and what is to come of it.
const CASES: &[(&str, &[Act<'static>])] = &[
    (
        "an_error_of_a_callback_keeps_the_rest_of_the_batch",
        &[
            Act::Ping(7),
            Act::Socket(Interest::READ, Mode::Level, None),
            Act::Alarm(5),
            Act::Idle,
            Act::Script(SECOND),
            Act::Ring(0),
            Act::Breaks(&[7, 1]),
            Act::Says(&[5, 9]),
            Act::Asked(&[0, 0]),
        ],
    ),
    (
        "a_socket_is_enabled_once_and_updated_while_it_is_enabled",
        &[
            Act::Socket(Interest::READ, Mode::Level, GOES_ON),
            Act::NotEnabled(0, ErrorKind::AlreadyExists),
            Act::Disable(0),
            Act::NotUpdated(0, ErrorKind::NotFound),
            Act::NotDisabled(0, ErrorKind::NotFound),
            Act::Called(&[Add(1, KEY, READ_LEVEL), Delete(1)]),
        ],
    ),
    (
        "a_socket_that_the_poller_refuses_is_handed_back",
        &[
            Act::Fail(ScriptKind::Add),
            Act::NoSocket(Interest::READ, Mode::Level),
            Act::Socket(Interest::READ, Mode::Level, GOES_ON),
            Act::IsAt(0, 0, 1),
            Act::Called(&[Add(1, KEY, READ_LEVEL), Add(1, 1 << 16, READ_LEVEL)]),
        ],
    ),
    (
        "a_fault_of_arming_again_is_the_error_of_the_turn",
        &[
            Act::Socket(Interest::READ, Mode::Level, GOES_ON),
            Act::Fail(ScriptKind::Modify),
            Act::Script(KEY),
            Act::Breaks(&[1]),
            Act::Holds(0),
            Act::Hears(KEY, &[1]),
        ],
    ),
    (
        "an_update_that_the_poller_refuses_leaves_the_socket_as_it_was",
        &[
            Act::Socket(Interest::READ, Mode::Level, GOES_ON),
            Act::SetInterest(0, Interest::WRITE),
            Act::Fail(ScriptKind::Modify),
            Act::NotUpdated(0, ErrorKind::Other),
            Act::Fail(ScriptKind::Delete),
            Act::NotDisabled(0, ErrorKind::Other),
            Act::Hears(KEY, &[1]),
            Act::Called(&[
                Add(1, KEY, READ_LEVEL),
                Modify(1, KEY, WRITE_LEVEL),
                Delete(1),
                Modify(1, KEY, WRITE_LEVEL),
            ]),
        ],
    ),
    (
        "a_socket_that_the_poller_keeps_hands_itself_back",
        &[
            Act::Socket(Interest::READ, Mode::Edge, GOES_ON),
            Act::Fail(ScriptKind::Delete),
            Act::KeepsItsSocket(0),
        ],
    ),
];

#[test]
fn each_case_of_refusals_goes_as_it_is_to(rt: HostRuntime) {
    for (name, acts) in CASES {
        assert_eq!(rt; plays(&rt, rt.alloc(), acts), None, "{name}");
    }
}

#[test]
fn a_socket_whose_callback_has_an_error_of_the_loop_is_unwrapped(rt: HostRuntime) {
    let idle: Generic<ScriptIo, calloop::Error> = Generic::new_with_error(
        ScriptIo { number: 5 },
        Interest::BOTH,
        Mode::Level,
    );
    assert_eq!(rt; idle.interest, Interest::BOTH);
    assert_eq!(rt; idle.get_ref().number, 5);
    match idle.unwrap() {
        Ok(io) => assert_eq!(rt; io.number, 5),
        Err(_) => assert!(rt; false),
    }
}

#[test]
fn a_socket_is_unwrapped_where_it_is_not_registered(rt: HostRuntime) {
    let idle: Generic<ScriptIo, io::Error> = Generic::new(
        ScriptIo { number: 4 },
        Interest::READ,
        Mode::Edge,
    );
    assert_eq!(rt; idle.get_ref().number, 4);
    match idle.unwrap() {
        Ok(io) => assert_eq!(rt; io.number, 4),
        Err(_) => assert!(rt; false),
    }
}
