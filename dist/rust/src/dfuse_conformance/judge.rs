// Of crates/dfu_conformance/src/dfuse/judge.rt, whose contracts are taken away.

//! The judge of a DfuSe device.

use crate::dfuse_conformance::stands::{Places, is_anywhere, step};
use crate::conformance::{Departure, LogEvent};

/// Set of possible states before the first event. It contains every state.
const EVERYWHERE: Places = [true; 12];

/// A judge of one DfuSe device, about which nothing is known at first. It has 12 bytes, and allocates no memory.
#[derive(Clone, Copy, Debug, PartialEq, Eq)]
pub struct DfuseJudge {
    /// For each state, in the order of `StandardState`, true if a DfuSe device may be in it after the events since the last
    /// departure.
    pub at: [bool; 12],
}

impl DfuseJudge {
    /// Returns a judge before the first event. The device may be in any state.
    pub fn new() -> DfuseJudge {
        DfuseJudge { at: EVERYWHERE }
    }

    /// Processes the next event. If no DfuSe device could have given the answers of all events since the last departure, including this
    /// one, returns a departure, and restarts with every state.
    pub fn take(&mut self, event: &LogEvent) -> Option<Departure> {
        let before = self.at;
        let after = step(&before, event);
        if is_anywhere(&after) {
            self.at = after;
            return None;
        }
        self.at = EVERYWHERE;
        Some(Departure {
            before,
            event: *event,
        })
    }
}
