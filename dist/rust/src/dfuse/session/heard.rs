// Of crates/dfuse_host/src/heard.rt, whose contracts are taken away.

//! Meanings of the results that a session receives.

use crate::dfuse::session::plan::Plan;
use crate::dfuse::session::seen::Seen;
use crate::dfuse::session::step::Step;
use crate::dfuse::session::work::Work;
use crate::wire::{State, Status};

/// Meaning of the result of an action.
#[derive(Clone, Copy, Debug, PartialEq, Eq)]
pub(crate) enum Heard {
    /// The device acknowledged the request.
    Acked,
    /// The device answered GETSTATUS with this status.
    Told(Status),
    /// The device answered GETSTATE with this state.
    StateIs(State),
    /// The device answered UPLOAD; true if the bytes equal those of the image.
    Compared(bool),
    /// The device stalled the request.
    Stalled,
    /// The request or its answer was lost, or the answer has no meaning at the step.
    Nothing,
    /// The wait is over.
    Waited,
    /// The device restarted.
    Restarted,
}

/// Decodes `bytes`, the answer to GETSTATUS. Returns `Nothing` if they don't encode a status.
fn status_in(bytes: &[u8]) -> Heard {
    match Status::decode(bytes) {
        Ok(status) => Heard::Told(status),
        Err(_) => Heard::Nothing,
    }
}

/// Decodes `bytes`, the answer to GETSTATE. Returns `Nothing` if they aren't the single byte of a state.
fn state_in(bytes: &[u8]) -> Heard {
    match bytes {
        [byte] => match State::from_byte(*byte) {
            Ok(state) => Heard::StateIs(state),
            Err(_) => Heard::Nothing,
        },
        _ => Heard::Nothing,
    }
}

/// Compares `bytes`, the answer to UPLOAD, with `wanted`. Returns `Nothing` if the lengths differ.
fn compared(wanted: &[u8], bytes: &[u8]) -> Heard {
    if bytes.len() == wanted.len() {
        Heard::Compared(bytes == wanted)
    } else {
        Heard::Nothing
    }
}

impl Plan<'_> {
    /// Returns the meaning of the answer `bytes` at `step` of `work`. It is `Nothing` if the step's request has no answer.
    fn answer_meaning(&self, work: Work, step: Step, bytes: &[u8]) -> Heard {
        match step {
            Step::AskState | Step::Probe | Step::CloseProbe => state_in(bytes),
            Step::AskStatus | Step::Poll(_) | Step::ClosePoll => status_in(bytes),
            Step::Read => compared(self.read_bytes(work), bytes),
            _ => Heard::Nothing,
        }
    }

    /// Returns the meaning of `seen` at `step` of `work`.
    pub(crate) fn hear(&self, work: Work, step: Step, seen: Seen<'_>) -> Heard {
        match seen {
            Seen::Ack => Heard::Acked,
            Seen::Bytes(bytes) => self.answer_meaning(work, step, bytes),
            Seen::Stall => Heard::Stalled,
            Seen::Nothing => Heard::Nothing,
            Seen::Waited => Heard::Waited,
            Seen::Restarted => Heard::Restarted,
        }
    }
}
