use desk::{Act, CLOSED, Tried, plays};

mod chance;
mod desk;
mod heedless;
mod machine;
mod memory;
mod own_sends;
mod threads;
mod waits;

// What a test does at a new desk, and what is to come of it.
const CASES: &[(&str, &[Act<'static>])] = &[
    (
        "messages_come_in_one_dispatch_and_in_order",
        &[
            Act::Make(None),
            Act::Insert,
            Act::Send(&[3, 1, 2]),
            Act::Says(None, &[3, 1, 2]),
            Act::Says(Some(100), &[]),
            Act::Asked(&[Some(0), Some(100)]),
            Act::Names(true),
        ],
    ),
    (
        "messages_that_were_sent_before_the_insertion_come_behind_it",
        &[
            Act::Make(None),
            Act::Send(&[1, 2]),
            Act::Insert,
            Act::Says(Some(100), &[1, 2]),
            Act::Asked(&[Some(0)]),
        ],
    ),
    (
        "the_close_is_told_once_behind_the_last_message_and_removes_the_channel",
        &[
            Act::Make(None),
            Act::Insert,
            Act::Clone,
            Act::Drop,
            Act::Says(Some(0), &[]),
            Act::Names(true),
            Act::Enable,
            Act::Send(&[5]),
            Act::Drop,
            Act::Says(Some(100), &[5, CLOSED]),
            Act::Names(false),
            Act::Says(Some(100), &[]),
            Act::Asked(&[Some(0), Some(0), Some(100)]),
        ],
    ),
    (
        "a_close_before_the_insertion_is_told_behind_it",
        &[
            Act::Make(Some(3)),
            Act::Drop,
            Act::Insert,
            Act::Says(Some(100), &[CLOSED]),
            Act::Names(false),
        ],
    ),
    (
        "a_full_channel_hands_its_message_back_and_has_room_after_a_dispatch",
        &[
            Act::Make(Some(2)),
            Act::Insert,
            Act::Try(1, Tried::Sent),
            Act::Try(2, Tried::Sent),
            Act::Try(3, Tried::Full(3)),
            Act::Says(Some(100), &[1, 2]),
            Act::Try(4, Tried::Sent),
            Act::Try(5, Tried::Sent),
            Act::Try(6, Tried::Full(6)),
            Act::Says(Some(100), &[4, 5]),
        ],
    ),
    (
        "a_bounded_channel_tells_its_close_behind_what_was_sent_after_it_was_full",
        &[
            Act::Make(Some(2)),
            Act::Insert,
            Act::Send(&[1, 2]),
            Act::Try(3, Tried::Full(3)),
            Act::Says(Some(0), &[1, 2]),
            Act::Send(&[4]),
            Act::Drop,
            Act::Says(Some(0), &[4, CLOSED]),
        ],
    ),
    (
        "a_turn_of_exactly_1024_messages_is_followed_by_one_that_finds_none",
        &[
            Act::Make(None),
            Act::Insert,
            Act::SendAll(0, 1_024),
            Act::SaysAll(None, 0, 1_024),
            Act::Says(Some(100), &[]),
            Act::Says(Some(100), &[]),
            Act::Asked(&[Some(0), Some(0), Some(100)]),
            Act::Names(true),
        ],
    ),
    (
        "a_turn_hands_out_1024_messages_and_the_next_one_the_rest",
        &[
            Act::Make(None),
            Act::Insert,
            Act::SendAll(0, 1_030),
            Act::SaysAll(None, 0, 1_024),
            Act::SaysAll(Some(100), 1_024, 1_030),
            Act::Says(Some(100), &[]),
            Act::Asked(&[Some(0), Some(0), Some(100)]),
        ],
    ),
    (
        "what_is_sent_to_a_disabled_channel_is_told_once_it_is_enabled",
        &[
            Act::Make(None),
            Act::Insert,
            Act::Send(&[1]),
            Act::Disable,
            Act::Send(&[2]),
            Act::Says(Some(100), &[]),
            Act::Enable,
            Act::Says(Some(100), &[1, 2]),
            Act::Disable,
            Act::Drop,
            Act::Says(Some(100), &[]),
            Act::Enable,
            Act::Says(Some(100), &[CLOSED]),
            Act::Asked(&[Some(100), Some(0), Some(100), Some(0)]),
            Act::Names(false),
        ],
    ),
    (
        "a_try_after_the_channel_is_gone_hands_the_message_back",
        &[
            Act::Make(Some(1)),
            Act::Try(1, Tried::Sent),
            Act::Leave,
            Act::Try(2, Tried::Disconnected(2)),
        ],
    ),
];

#[test]
fn each_case_goes_as_it_is_to(rt: HostRuntime) {
    for (name, acts) in CASES {
        assert_eq!(rt; plays(&rt, rt.alloc(), acts), None, "{name}");
    }
}
