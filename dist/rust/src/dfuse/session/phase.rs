// Of crates/dfuse_host/src/phase.rt, whose contracts are taken away.

//! The phases of a session.

use crate::dfuse::session::place::Place;
use crate::dfuse::session::report::Report;
use crate::dfuse::session::step::Step;
use crate::dfuse::session::work::Work;

/// Standing of a session: its work, its knowledge of the address pointer, and its next step.
#[derive(Clone, Copy, Debug, PartialEq, Eq)]
pub struct Standing {
    /// Work that the session is doing.
    pub work: Work,
    /// Knowledge of the device's address pointer.
    pub place: Place,
    /// Next step of the work.
    pub step: Step,
}

/// Phase of a session: it goes on, or it is over.
#[derive(Clone, Copy, Debug, PartialEq, Eq)]
pub enum Phase {
    /// The session goes on from this standing.
    On(Standing),
    /// The session is over with this report.
    Over(Report),
}
