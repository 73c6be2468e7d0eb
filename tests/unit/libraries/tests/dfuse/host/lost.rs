//! What lost answers, stalls and restarts lead to.

use super::dialogue::{
    ABORT, AT_ONCE, BUSY, CLEAR_STATUS, CLEARED, DATA, DONE, ERASE_FIRST, ERASING, ERROR,
    GET_STATE, GET_STATUS, IDLE, POINT_FIRST, POINTING, READ, READY, SYNC, Script, USUAL, WRITING,
};
use fustrelan::dfuse::session::{Action, Seen};

/// A session that asks for the status of what it sent last.
const ASKING: Script = Script {
    last: GET_STATUS,
    ..USUAL
};

/// Sessions that go on.
#[rustfmt::skip]
pub static LOST: [Script; 4] = [
    Script {
        name: "a command that is lost is asked for and sent again",
        parts: &[&[
            (ABORT, Seen::Nothing),
            (ABORT, Seen::Ack),
            (GET_STATE, Seen::Nothing),
            (GET_STATE, IDLE),
            (ERASE_FIRST, Seen::Nothing),
            (GET_STATE, IDLE),
            (ERASE_FIRST, Seen::Nothing),
            (GET_STATE, SYNC),
            (GET_STATUS, Seen::Nothing),
            (GET_STATUS, BUSY),
            (Action::Wait(5), Seen::Nothing),
            (Action::Wait(5), Seen::Waited),
            (GET_STATUS, Seen::Stall),
            (Action::Wait(5), Seen::Waited),
            (GET_STATUS, READY),
            (POINT_FIRST, Seen::Ack),
            (GET_STATUS, Seen::Stall),
            (Action::Wait(100), Seen::Waited),
            (GET_STATUS, READY),
            (DATA, Seen::Ack),
        ]],
        taken: 20,
        ..ASKING
    },
    // At the first question the write may have begun.
    Script {
        name: "a restart in a write erases its page again",
        parts: &[
            CLEARED, ERASING, DONE, POINTING, DONE, WRITING,
            &[(GET_STATUS, Seen::Restarted)],
            CLEARED, ERASING, AT_ONCE, POINTING, AT_ONCE, WRITING,
            &[(GET_STATUS, BUSY), (Action::Wait(5), Seen::Restarted)],
            CLEARED, ERASING,
        ],
        taken: 24,
        ..ASKING
    },
    // Before the question the write hasn't begun: it is sent again, once the pointer is set again.
    Script {
        name: "the pointer is not known behind a restart",
        parts: &[
            CLEARED, ERASING, DONE, POINTING, DONE,
            &[(DATA, Seen::Restarted)],
            CLEARED, POINTING, AT_ONCE, WRITING, AT_ONCE, POINTING, AT_ONCE,
            &[(ABORT, Seen::Ack), (READ, Seen::Restarted)],
            CLEARED, POINTING,
        ],
        taken: 24,
        ..ASKING
    },
    Script {
        name: "what an earlier session left is dropped and waited for",
        parts: &[
            &[
                (ABORT, Seen::Ack),
                (GET_STATE, SYNC),
                (ABORT, Seen::Stall),
                (GET_STATE, Seen::Bytes(&[4])),
                (GET_STATUS, BUSY),
                (Action::Wait(5), Seen::Waited),
                (GET_STATE, ERROR),
                (GET_STATUS, Seen::Bytes(&[14, 0, 0, 0, 10, 0])),
                (CLEAR_STATUS, Seen::Ack),
            ],
            CLEARED, ERASING,
        ],
        taken: 12,
        ..ASKING
    },
];
