// Of crates/dfu_conformance/src/lib.rt, whose contracts are taken away.

//! Checks that a device that keeps USB DFU 1.1 could have given the answers in a log. Tables contain all answers that the standard allows,
//! and a judge follows all possible devices at once.

// Row of a table: the state before the event, the event, the devices, the answer, the state after the event, and the source.
macro_rules! row {
    ($from:ident, $asked:ident, $when:expr, $gives:ident, $next:ident, $source:ident) => {
        $crate::conformance::Row {
            from: $from,
            asked: $asked,
            when: $when,
            gives: $gives,
            next: $next,
            source: $source,
        }
    };
}

// Move of a device by itself: the state before the move, the devices, the state after the move, and the source.
macro_rules! drift {
    ($from:ident, $when:expr, $next:ident, $source:ident) => {
        $crate::conformance::Drift {
            from: $from,
            when: $when,
            next: $next,
            source: $source,
        }
    };
}

mod drifts;
mod event;
mod habits;
mod held;
mod judge;
mod line;
mod log;
mod marks;
mod row;
mod standard;
mod verdict;
mod whole;

pub use drifts::DRIFTS;
pub use event::{LogEvent, Response, row_fits_event};
pub use habits::HABITS;
pub use judge::Judge;
pub use log::{Line, LineFault, read_line, why_unread};
pub use marks::MARKS;
pub use row::{Drift, EventKind, Gives, Reading, Row, RuleSource, StandardState, When};
pub use standard::STANDARD;
pub use verdict::{Departure, Verdict};
pub use whole::verdict_on;
