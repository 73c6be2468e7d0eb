// Of crates/dfu_host/src/heard.rt, whose contracts are taken away.

//! Meanings of results for a host.

use crate::host::phase::Phase;
use crate::host::seen::Seen;
use crate::host::task::Task;
use crate::wire::{State, Status};

/// Meaning of a result for a host.
#[derive(Clone, Copy, Debug, PartialEq, Eq)]
pub(crate) enum Heard {
    Acked,
    Told(Status),
    StateIs(State),
    /// Length in bytes of a part of an upload. If the part must be kept, it is kept already.
    Part(usize),
    /// A part of an image that was compared. `same` is true if it equals the payload's block, and `len` is its length in bytes.
    Compared { same: bool, len: usize },
    /// A part of an upload for which there was no memory.
    NoRoom,
    Stalled,
    Nothing,
    Waited,
    WasReset,
    Restarted,
    Left,
}

impl Task<'_> {
    /// Returns the meaning of `seen` in `phase`. Bytes are read as the answer to the phase's request; bytes that aren't a valid answer mean
    /// Nothing. A part of an upload that must be kept is kept already, unless it was `refused`. A part of a comparison is compared here.
    pub(crate) fn hear(&self, phase: Phase, seen: Seen<'_>, refused: bool) -> Heard {
        match seen {
            Seen::Ack => Heard::Acked,
            Seen::Bytes(bytes) => self.answered(phase, bytes, refused),
            Seen::Stall => Heard::Stalled,
            Seen::Nothing => Heard::Nothing,
            Seen::Waited => Heard::Waited,
            Seen::WasReset => Heard::WasReset,
            Seen::Restarted => Heard::Restarted,
            Seen::Left => Heard::Left,
        }
    }

    /// Returns the meaning of `bytes` as an answer in `phase`.
    fn answered(&self, phase: Phase, bytes: &[u8], refused: bool) -> Heard {
        match phase {
            Phase::Find | Phase::FindAgain | Phase::Poll(_) | Phase::Manifest | Phase::Trouble => {
                status_in(bytes)
            }
            Phase::Ask(_) | Phase::AskLast => state_in(bytes),
            Phase::Fetch(number) => self.received(number, bytes, refused),
            Phase::Compare(number) => self.compare(number, bytes),
            _ => Heard::Nothing,
        }
    }
}

/// Returns the status that `bytes` encode, or Nothing if they encode none.
fn status_in(bytes: &[u8]) -> Heard {
    match Status::decode(bytes) {
        Ok(status) => Heard::Told(status),
        Err(_) => Heard::Nothing,
    }
}

/// Returns the state that `bytes` encode, or Nothing if they aren't a single byte that encodes a state.
fn state_in(bytes: &[u8]) -> Heard {
    match bytes {
        [byte] => match State::from_byte(*byte) {
            Ok(state) => Heard::StateIs(state),
            Err(_) => Heard::Nothing,
        },
        _ => Heard::Nothing,
    }
}
