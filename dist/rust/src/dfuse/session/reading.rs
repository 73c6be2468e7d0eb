// Of crates/dfuse_host/src/reading.rt, whose contracts are taken away.

//! Reading the image back with UPLOAD.

use crate::dfuse::session::command::cleared;
use crate::dfuse::session::heard::Heard;
use crate::dfuse::session::phase::Phase;
use crate::dfuse::session::place::Place;
use crate::dfuse::session::plan::Plan;
use crate::dfuse::session::report::Report;
use crate::dfuse::session::settling::stand;
use crate::dfuse::session::step::Step;
use crate::dfuse::session::work::Work;

/// Returns `place` after the device went to dfuIDLE for reading.
fn begun(place: Place) -> Place {
    match place {
        Place::At(pointer) => Place::Reading(pointer),
        _ => place,
    }
}

/// Returns `place` after the device left dfuUPLOAD-IDLE.
fn place_after_reading(place: Place) -> Place {
    match place {
        Place::Reading(pointer) => Place::At(pointer),
        _ => place,
    }
}

/// Returns `place` after `step`. An ABORT that begins or ends reading leaves the pointer at its address, and other steps change nothing.
fn place_after_step(step: Step, place: Place) -> Place {
    match step {
        Step::BeginReading => begun(place),
        Step::EndReading => place_after_reading(place),
        _ => place,
    }
}

impl Plan<'_> {
    /// Returns the phase after the ABORT of `step`, which begins or ends reading.
    pub(crate) fn on_reading_abort(
        &self,
        work: Work,
        place: Place,
        step: Step,
        heard: &Heard,
    ) -> Phase {
        match heard {
            Heard::Acked => self.settle(work, place_after_step(step, place)),
            Heard::Stalled => cleared(work),
            _ => stand(work, place, step),
        }
    }

    /// Returns `work` after its next bytes were read back. A comparison goes on after these bytes, and other works stay unchanged.
    fn read_on(&self, work: Work) -> Work {
        let end = self.end_of_work(work);
        match work {
            Work::Compare { at } => Work::Compare {
                at: self.read_end(at, end),
            },
            Work::CompareFront { at } => Work::CompareFront {
                at: self.read_end(at, end),
            },
            _ => work,
        }
    }

    /// Returns the phase after UPLOAD with the result `heard`.
    pub(crate) fn on_read(&self, work: Work, place: Place, heard: &Heard) -> Phase {
        match heard {
            Heard::Compared(true) => self.settle(self.read_on(work), place),
            Heard::Compared(false) => Phase::Over(Report::Different),
            Heard::Stalled => cleared(work),
            _ => stand(work, place, Step::Read),
        }
    }
}
