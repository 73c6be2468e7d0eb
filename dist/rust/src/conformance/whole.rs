// Of crates/dfu_conformance/src/whole.rt, whose contracts are taken away.

//! The verdict on a complete list of events.

use crate::conformance::{Judge, LogEvent, Verdict};

/// Returns the verdict on `events`, for a device about which nothing is known at first.
pub fn verdict_on(events: &[LogEvent]) -> Verdict {
    let mut judge = Judge::new();
    for event in events {
        let _ = judge.take(event);
    }
    judge.verdict()
}
