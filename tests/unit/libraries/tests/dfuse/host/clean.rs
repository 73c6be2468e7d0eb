//! A session without a fault.

use super::dialogue::{
    ABORT, AMPLE, CLEARED, CLOSE, COMMAND, DONE, ERASING, GET_STATUS, LEAVES, POINTING, READ,
    Script, Turn, asks,
};
use fustrelan::dfuse::session::{Action, Element, Leaving, Report, Seen};

const ERASE_SECOND: Action<'static> = Action::Command {
    setup: COMMAND,
    body: [0x41, 0, 0x40, 0, 8],
};

const POINT_SECOND: Action<'static> = Action::Command {
    setup: COMMAND,
    body: [0x21, 0, 0x40, 0, 8],
};

const POINTING_SECOND: &[Turn] = &[(POINT_SECOND, Seen::Ack)];
const WRITE_FOUR: Action<'static> = Action::Send {
    setup: [0x21, 1, 2, 0, 0, 0, 4, 0],
    body: &[1, 2, 3, 4],
};

const WRITE_TWO: Action<'static> = Action::Send {
    setup: [0x21, 1, 2, 0, 0, 0, 2, 0],
    body: &[5, 6],
};

const READ_FOUR: Action<'static> = asks([0xa1, 2, 2, 0, 0, 0, 4, 0]);

/// An element in each of two pages. All but the front is written and read back, and then the front, which is the first element.
/// It takes 34 transfers and 8 waits.
pub static TWO_ELEMENTS: Script = Script {
    name: "two elements on an F4",
    image: &[
        Element {
            address: 0x0800_0000,
            bytes: &[1, 2, 3, 4],
        },
        Element {
            address: 0x0800_4000,
            bytes: &[5, 6],
        },
    ],
    leaves: true,
    limits: AMPLE,
    parts: &[
        CLEARED,
        ERASING,
        DONE,
        &[(ERASE_SECOND, Seen::Ack)],
        DONE,
        POINTING_SECOND,
        DONE,
        &[(WRITE_TWO, Seen::Ack)],
        DONE,
        POINTING_SECOND,
        DONE,
        &[
            (ABORT, Seen::Ack),
            (READ, Seen::Bytes(&[5, 6])),
            (ABORT, Seen::Ack),
        ],
        POINTING,
        DONE,
        &[(WRITE_FOUR, Seen::Ack)],
        DONE,
        POINTING,
        DONE,
        &[
            (ABORT, Seen::Ack),
            (READ_FOUR, Seen::Bytes(&[1, 2, 3, 4])),
            (ABORT, Seen::Ack),
        ],
        &[(CLOSE, Seen::Ack), (GET_STATUS, LEAVES)],
    ],
    last: Action::Done(Report::Verified(Leaving::Left)),
    taken: 42,
};
