//! Pollers that answer anything.
use super::desk::{Act, Why, plays};
use calloop::sys::Watched;
use calloop::{Interest, Mode};
use calloop_script::{ScriptCall, ScriptKind};

const ADDED: ScriptCall = ScriptCall::Add(1, 0, READS);

const READS: Watched = Watched {
    interest: Interest::READ,
    mode: Mode::Edge,
};

// The key of the first version of the second slot.
const SECOND: u64 = 1 << 40;

// Of the second version of the first slot.
const NEXT: u64 = 1 << 16;

#[test]
fn of_five_keys_the_source_has_its_turn_for_its_own_two_and_calls_nobody(rt: HostRuntime) {
    let acts = [
        Act::Ping(7),
        Act::Keys(0, &[u64::MAX, SECOND, NEXT, 1, 0]),
        Act::Says(100, &[]),
        Act::Names(0, 0, true),
        Act::Ring(0),
        Act::Says(100, &[7]),
        Act::Asked(&[100, 0]),
    ];
    assert_eq!(rt; plays(&rt, rt.alloc(), &acts), None);
    let acts = [
        Act::Counter,
        Act::Keys(0, &[u64::MAX, SECOND, NEXT, 1, 0]),
        Act::Says(100, &[1, 2]),
        Act::Names(0, 0, true),
    ];
    assert_eq!(rt; plays(&rt, rt.alloc(), &acts), None);
}

#[test]
fn three_interruptions_at_once_leave_the_timeout_as_it_was(rt: HostRuntime) {
    let acts = [
        Act::Interrupted(0),
        Act::Interrupted(0),
        Act::Interrupted(0),
        Act::Says(100, &[]),
        Act::Asked(&[100, 100, 100, 100]),
    ];
    assert_eq!(rt; plays(&rt, rt.alloc(), &acts), None);
}

#[test]
fn an_interruption_leaves_what_is_left_of_the_timeout_by_the_clock(rt: HostRuntime) {
    let acts = [
        Act::Interrupted(40),
        Act::Interrupted(30),
        Act::Says(100, &[]),
        Act::Asked(&[100, 60, 70]),
    ];
    assert_eq!(rt; plays(&rt, rt.alloc(), &acts), None);
}

#[test]
fn an_event_before_a_wait_stays_where_the_next_source_fails(rt: HostRuntime) {
    let acts = [
        Act::Attendant(1, 0),
        Act::Attendant(0, 1),
        Act::Ping(7),
        Act::Ring(0),
        Act::Fails(50, &[], Why::Other),
        Act::Asked(&[]),
        Act::Says(50, &[2, 7]),
        Act::Asked(&[0]),
        Act::Says(50, &[]),
    ];
    assert_eq!(rt; plays(&rt, rt.alloc(), &acts), None);
}

#[test]
fn an_event_before_a_wait_stays_where_the_wait_fails(rt: HostRuntime) {
    let acts = [
        Act::Attendant(1, 0),
        Act::Attendant(0, 0),
        Act::Ping(7),
        Act::Ring(0),
        Act::Fault(0),
        Act::Fails(50, &[], Why::Io),
        Act::Asked(&[0]),
        Act::Says(50, &[2, 7]),
        Act::Asked(&[0]),
        Act::Says(50, &[]),
    ];
    assert_eq!(rt; plays(&rt, rt.alloc(), &acts), None);
}

#[test]
fn a_registration_anew_without_tokens_keeps_the_source_and_the_rest(rt: HostRuntime) {
    let acts = [
        Act::Greedy(7),
        Act::Ping(8),
        Act::Idle(9),
        Act::Ring(0),
        Act::Ring(1),
        Act::Fails(100, &[7], Why::Tokens),
        Act::Names(0, 0, true),
        Act::Says(100, &[8, 9]),
        Act::Asked(&[0, 0]),
        Act::Ring(0),
        Act::Fails(100, &[7], Why::Tokens),
    ];
    assert_eq!(rt; plays(&rt, rt.alloc(), &acts), None);
}

#[test]
fn an_old_key_is_silent_after_65536_uses_of_its_slot_too(rt: HostRuntime) {
    let acts = [
        Act::Socket(1),
        Act::Reuses(65_535),
        Act::Keys(0, &[0]),
        Act::Says(100, &[]),
        Act::Names(0, 65_535, true),
        Act::Reuses(1),
        Act::Keys(0, &[0]),
        Act::Says(100, &[]),
        Act::Names(0, 0, false),
        Act::Names(0, 65_536, true),
    ];
    assert_eq!(rt; plays(&rt, rt.alloc(), &acts), None);
}

#[test]
fn a_socket_that_the_poller_fails_to_add_is_not_in_the_loop(rt: HostRuntime) {
    let acts = [
        Act::FailAt(ScriptKind::Add),
        Act::NoSocket,
        Act::Names(0, 0, false),
        Act::Calls(&[ADDED]),
        Act::Keys(0, &[0, NEXT]),
        Act::Says(100, &[]),
        Act::Socket(5),
        Act::Names(0, 1, true),
        Act::Keys(0, &[NEXT]),
        Act::Says(100, &[5]),
    ];
    assert_eq!(rt; plays(&rt, rt.alloc(), &acts), None);
}

#[test]
fn a_socket_that_the_poller_fails_to_modify_stays_as_it_was(rt: HostRuntime) {
    let acts = [
        Act::Socket(5),
        Act::FailAt(ScriptKind::Modify),
        Act::Updates(0, 0, false),
        Act::Names(0, 0, true),
        Act::Keys(0, &[0]),
        Act::Says(100, &[5]),
        Act::Updates(0, 0, true),
        Act::Keys(0, &[0]),
        Act::Says(100, &[5]),
    ];
    assert_eq!(rt; plays(&rt, rt.alloc(), &acts), None);
}

#[test]
fn a_socket_that_the_poller_fails_to_delete_stays_where_it_is_disabled(rt: HostRuntime) {
    let acts = [
        Act::Socket(5),
        Act::FailAt(ScriptKind::Delete),
        Act::Disables(0, 0, false),
        Act::Names(0, 0, true),
        Act::Keys(0, &[0]),
        Act::Says(100, &[5]),
        Act::Disables(0, 0, true),
        Act::Keys(0, &[0]),
        Act::Says(100, &[]),
        Act::Enables(0, 0, true),
        Act::Calls(&[ADDED, DELETED, DELETED, ADDED]),
    ];
    assert_eq!(rt; plays(&rt, rt.alloc(), &acts), None);
}

#[test]
fn a_socket_that_the_poller_fails_to_delete_leaves_with_a_warning_where_it_is_removed(
    rt: HostRuntime,
) {
    let acts = [
        Act::Socket(5),
        Act::FailAt(ScriptKind::Delete),
        Act::Removes(0, 0, 1),
        Act::Names(0, 0, false),
        Act::Keys(0, &[0]),
        Act::Says(100, &[]),
        Act::Socket(6),
        Act::Names(0, 1, true),
        Act::Keys(0, &[NEXT]),
        Act::Says(100, &[6]),
    ];
    assert_eq!(rt; plays(&rt, rt.alloc(), &acts), None);
}

#[test]
fn a_wait_that_fails_calls_nobody_and_loses_nothing(rt: HostRuntime) {
    let acts = [
        Act::Ping(7),
        Act::Socket(5),
        Act::Idle(9),
        Act::Ring(0),
        Act::Fault(3),
        Act::Fails(100, &[], Why::Io),
        Act::Keys(4, &[SECOND]),
        Act::Says(100, &[7, 5, 9]),
        Act::Asked(&[0, 0]),
    ];
    assert_eq!(rt; plays(&rt, rt.alloc(), &acts), None);
}

const DELETED: ScriptCall = ScriptCall::Delete(1);
