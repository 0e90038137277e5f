//! What a poll of a socket waits for, and what it is answered.
use super::desk::{Act, How, Word, plays};
use super::{TO_READ, TO_WRITE};
use calloop_script::{ScriptCall, ScriptKind};

const READS: ScriptCall = ScriptCall::Add(1, 0, TO_READ);

const WRITES: ScriptCall = ScriptCall::Add(1, 0, TO_WRITE);

const WRITES_ANEW: ScriptCall = ScriptCall::Modify(1, 0, TO_WRITE);

#[test]
fn a_read_waits_to_read_and_a_write_to_write(rt: HostRuntime) {
    for (how, call) in [(How::Read, READS), (How::Write, WRITES)] {
        let acts = [
            Act::Adapt,
            Act::Poll(how, 1),
            Act::Dispatch(&[]),
            Act::Dispatch(&[]),
            Act::Calls(&[call]),
        ];
        assert_eq!(rt; plays(&rt, rt.alloc(), &acts), None);
    }
}

#[test]
fn a_flush_that_succeeds_waits_for_nothing(rt: HostRuntime) {
    let acts = [
        Act::Adapt,
        Act::Poll(How::Flush, 1),
        Act::Dispatch(&[Word::Ready]),
        Act::Dispatch(&[]),
        Act::Calls(&[]),
    ];
    assert_eq!(rt; plays(&rt, rt.alloc(), &acts), None);
}

#[test]
fn a_kept_refusal_is_what_a_read_and_a_write_are_answered_once(rt: HostRuntime) {
    for how in [How::Read, How::Write] {
        let acts = [
            Act::Adapt,
            Act::Poll(how, 1),
            Act::Dispatch(&[]),
            Act::Fail(ScriptKind::Add),
            Act::Dispatch(&[Word::Refused]),
            Act::Poll(how, 1),
            Act::Dispatch(&[]),
        ];
        assert_eq!(rt; plays(&rt, rt.alloc(), &acts), None);
    }
}

#[test]
fn a_kept_refusal_is_what_a_flush_is_answered_once(rt: HostRuntime) {
    let acts = [
        Act::Adapt,
        Act::PollThen(How::Read, How::Flush),
        Act::Dispatch(&[]),
        Act::Fail(ScriptKind::Add),
        Act::Dispatch(&[Word::Refused]),
        Act::Poll(How::Flush, 1),
        Act::Dispatch(&[Word::Ready]),
        Act::Calls(&[READS]),
    ];
    assert_eq!(rt; plays(&rt, rt.alloc(), &acts), None);
}

#[test]
fn a_poll_without_a_socket_finds_none(rt: HostRuntime) {
    for how in [How::Read, How::Write, How::Flush] {
        let acts = [
            Act::Adapt,
            Act::Empty,
            Act::Poll(how, 1),
            Act::Dispatch(&[Word::Missing]),
            Act::Dispatch(&[]),
            Act::Calls(&[]),
        ];
        assert_eq!(rt; plays(&rt, rt.alloc(), &acts), None);
    }
}

#[test]
fn an_event_of_another_token_is_not_heard(rt: HostRuntime) {
    let acts = [
        Act::Adapt,
        Act::Look(1),
        Act::Dispatch(&[]),
        Act::AnswerKey(1),
        Act::Dispatch(&[]),
        Act::Dispatch(&[]),
        Act::Answer(true),
        Act::Dispatch(&[]),
        Act::Dispatch(&[Word::Ready]),
    ];
    assert_eq!(rt; plays(&rt, rt.alloc(), &acts), None);
}

#[test]
fn an_adapter_that_was_registered_to_read_is_registered_anew_to_write(rt: HostRuntime) {
    let acts = [
        Act::Adapt,
        Act::Look(1),
        Act::Dispatch(&[]),
        Act::Answer(true),
        Act::Dispatch(&[]),
        Act::Dispatch(&[Word::Ready]),
        Act::LookToWrite(1),
        Act::Dispatch(&[]),
        Act::Answer(false),
        Act::Dispatch(&[]),
        Act::Calls(&[READS, WRITES_ANEW]),
        Act::Dispatch(&[Word::Ready]),
    ];
    assert_eq!(rt; plays(&rt, rt.alloc(), &acts), None);
}
