//! What ends a session.

use super::dialogue::{
    ABORT, CLEARED, DONE, ERASING, GET_STATUS, POINTING, READ, Script, Turn, USUAL, WRITING,
};
use fustrelan::dfuse::session::{Action, Leaving, Limits, Report, Seen};
use fustrelan::wire::Code;

/// An answer that is lost.
const LOST: &[Turn] = &[(ABORT, Seen::Nothing)];
const RESTARTED: &[Turn] = &[(ABORT, Seen::Restarted)];

/// An answer with fewer bytes or more is asked for again.
const PARTLY_READ: &[Turn] = &[
    (ABORT, Seen::Ack),
    (READ, Seen::Bytes(&[7])),
    (READ, Seen::Bytes(&[7, 8, 9])),
];

/// Sessions that are over.
#[rustfmt::skip]
pub static ENDED: [Script; 9] = [
    Script { name: "what is read back is the image", leaves: false,
        parts: &[CLEARED, ERASING, DONE, POINTING, DONE, WRITING, DONE, POINTING, DONE, PARTLY_READ,
            &[(READ, Seen::Bytes(&[7, 8])), (ABORT, Seen::Ack)]],
        last: Action::Done(Report::Verified(Leaving::Stayed)), taken: 23, ..USUAL },
    Script { name: "what is read back is another byte", leaves: false,
        parts: &[CLEARED, ERASING, DONE, POINTING, DONE, WRITING, DONE, POINTING, DONE, PARTLY_READ,
            &[(READ, Seen::Bytes(&[7, 0]))]],
        last: Action::Done(Report::Different), taken: 22, ..USUAL },
    Script { name: "an error with the code OK",
        parts: &[CLEARED, ERASING, &[(GET_STATUS, Seen::Bytes(&[0, 0, 0, 0, 10, 0]))]],
        last: Action::Done(Report::Refused(Code::Ok)), taken: 4, ..USUAL },
    Script { name: "an error with errTARGET",
        parts: &[CLEARED, ERASING, &[(GET_STATUS, Seen::Bytes(&[1, 0, 0, 0, 10, 0]))]],
        last: Action::Done(Report::Refused(Code::Target)), taken: 4, ..USUAL },
    Script { name: "an error with errVENDOR",
        parts: &[CLEARED, ERASING, &[(GET_STATUS, Seen::Bytes(&[11, 0, 0, 0, 10, 0]))]],
        last: Action::Done(Report::ReadProtected), taken: 4, ..USUAL },
    Script { name: "no action counts as one", limits: Limits { actions: 0, restarts: 0 },
        parts: &[LOST], last: Action::Done(Report::GaveUp), taken: 1, ..USUAL },
    Script { name: "one action", limits: Limits { actions: 1, restarts: 0 },
        parts: &[LOST], last: Action::Done(Report::GaveUp), taken: 1, ..USUAL },
    Script { name: "five actions", limits: Limits { actions: 5, restarts: 0 },
        parts: &[LOST, LOST, LOST, LOST, LOST], last: Action::Done(Report::GaveUp), taken: 5, ..USUAL },
    Script { name: "a restart too many", limits: Limits { actions: 9, restarts: 1 },
        parts: &[RESTARTED, RESTARTED], last: Action::Done(Report::RestartsSpent), taken: 2, ..USUAL },
];
