// Of crates/dfu_conformance/src/verdict.rt, whose contracts are taken away.

//! Verdicts and departures, the results of a judge.

use crate::conformance::event::is_asked;
use crate::conformance::{LogEvent, Row};

/// Verdict of a judge on all events that it has processed.
#[derive(Clone, Copy, Debug, PartialEq, Eq)]
pub enum Verdict {
    /// A device that keeps the standard may have answered the events.
    Kept,
    /// No device that keeps the standard may have answered the events, but a device with these habits may. Bit n is habit n of
    /// `Reading`. No set of fewer habits is enough.
    KeptBy {
        /// The set of habits, 1 to 63.
        readings: u8,
    },
    /// No device with any set of habits may have answered the events.
    NotKept,
}

/// An event whose answer departs from the standard: after the answers since the last departure, no device that keeps the standard could
/// have given this answer. In a result for DfuSe, no DfuSe device could have given it.
#[derive(Clone, Copy, Debug, PartialEq, Eq)]
pub struct Departure {
    /// States in which the device might be before the event, in the order of `StandardState`.
    pub before: [bool; 12],
    /// The event that departs from the standard.
    pub event: LogEvent,
}

impl Departure {
    /// Returns true if `row` was allowed at the event: it begins in a state in which the device might be, and applies to the event's kind.
    pub fn allows(&self, row: &Row) -> bool {
        self.before[row.from.number()] && is_asked(row.asked, &self.event)
    }
}
