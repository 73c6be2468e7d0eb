// Of crates/dfu_conformance/src/dfuse/whole.rt, whose contracts are taken away.

//! The first departure in a complete list of events.

use crate::dfuse_conformance::judge::DfuseJudge;
use crate::conformance::{Departure, LogEvent};

/// Returns the first departure in `events`, for a DfuSe device about which nothing is known, and the index of its event, counted from 0.
/// Returns None if a DfuSe device may have answered all events.
pub fn first_departure(events: &[LogEvent]) -> Option<(usize, Departure)> {
    let mut judge = DfuseJudge::new();
    for n in 0..events.len() {
        if let Some(departure) = judge.take(&events[n]) {
            return Some((n, departure));
        }
    }
    None
}
