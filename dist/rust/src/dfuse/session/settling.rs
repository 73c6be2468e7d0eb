// Of crates/dfuse_host/src/settling.rt, whose contracts are taken away.

//! Order of the works: the next work when the device is ready for a command.

use crate::dfuse::session::image::{element_at, image_end, image_start, next_byte};
use crate::dfuse::session::phase::{Phase, Standing};
use crate::dfuse::session::place::Place;
use crate::dfuse::session::plan::Plan;
use crate::dfuse::session::report::{Leaving, Report};
use crate::dfuse::session::step::Step;
use crate::dfuse::session::work::Work;

/// Returns the phase with `work`, `place` and `step`.
pub(crate) fn stand(work: Work, place: Place, step: Step) -> Phase {
    Phase::On(Standing { work, place, step })
}

/// Returns the next step on the way to a command: `EndReading` if the session is reading, and `Send` otherwise.
fn sending(place: Place) -> Step {
    match place {
        Place::Lost | Place::At(_) => Step::Send,
        Place::Reading(_) => Step::EndReading,
    }
}

impl Plan<'_> {
    /// Returns the address of the image's next byte from `at` on, or None if it isn't below `end`.
    fn byte_in(&self, at: u64, end: u64) -> Option<u64> {
        match next_byte(at, self.image) {
            Some(byte) if byte < end => Some(byte),
            _ => None,
        }
    }

    /// Returns true if an UPLOAD block with a number of at most 65,535 begins at `at` when the pointer is set to `base`, and both addresses
    /// are in the same element.
    fn can_read(&self, base: u64, at: u64) -> bool {
        if at < base {
            return false;
        }
        let behind = at - base;
        let size = self.block_size();
        if behind % size != 0 || behind / size > 65533 {
            return false;
        }
        match element_at(at, self.image) {
            None => false,
            Some(element) => element.address as u64 <= base,
        }
    }

    /// Returns the next step on the way to an UPLOAD of the bytes at `at`: the pointer must be set to a suitable address, and the device
    /// must be ready for reading.
    fn read_step(&self, at: u64, place: Place) -> Step {
        match place {
            Place::Lost => Step::Send,
            Place::At(pointer) if pointer == at => Step::BeginReading,
            Place::At(_) => Step::Send,
            Place::Reading(base) if self.can_read(base, at) => Step::Read,
            Place::Reading(_) => Step::EndReading,
        }
    }

    /// Returns the phase after the whole image was compared.
    fn to_leave(&self, place: Place) -> Phase {
        match place {
            Place::Reading(_) => stand(Work::Leave, place, Step::EndReading),
            _ if !self.leaves => Phase::Over(Report::Verified(Leaving::Stayed)),
            Place::At(pointer) if pointer == self.start as u64 => stand(
                Work::Leave,
                place,
                Step::Close,
            ),
            _ => stand(Work::Leave, place, Step::Send),
        }
    }

    /// Returns the phase that compares the front from `at` on.
    fn to_compare_front(&self, place: Place, at: u64) -> Phase {
        match self.byte_in(at, self.front_end()) {
            None => self.to_leave(place),
            Some(at) => stand(Work::CompareFront { at }, place, self.read_step(at, place)),
        }
    }

    /// Returns the phase that writes the front from `at` on.
    pub(crate) fn to_write_front(&self, place: Place, at: u64) -> Phase {
        match self.byte_in(at, self.front_end()) {
            None => self.to_compare_front(place, image_start(self.image)),
            Some(at) => stand(Work::WriteFront { at }, place, sending(place)),
        }
    }

    /// Returns the phase that compares the image after the front, from `at` on.
    fn to_compare(&self, place: Place, at: u64) -> Phase {
        match self.byte_in(at, image_end(self.image)) {
            None => self.to_write_front(place, image_start(self.image)),
            Some(at) => stand(Work::Compare { at }, place, self.read_step(at, place)),
        }
    }

    /// Returns the phase that writes the image from `at` up to `end`.
    pub(crate) fn to_write(&self, place: Place, at: u64, end: u64) -> Phase {
        match self.byte_in(at, end) {
            None => self.to_compare(place, self.front_end()),
            Some(at) => stand(Work::Write { at, end }, place, sending(place)),
        }
    }

    /// Returns the phase that erases the pages of the image from `at` on.
    pub(crate) fn to_erase(&self, place: Place, at: u64) -> Phase {
        match self.byte_in(at, image_end(self.image)) {
            None => self.to_write(place, self.front_end(), image_end(self.image)),
            Some(at) => stand(Work::Erase { at }, place, sending(place)),
        }
    }

    /// Returns the next phase of `work` when the device is ready for a command.
    pub(crate) fn settle(&self, work: Work, place: Place) -> Phase {
        match work {
            Work::Erase { at } => self.to_erase(place, at),
            Work::EraseAgain { page, end } => {
                stand(Work::EraseAgain { page, end }, place, sending(place))
            }
            Work::Write { at, end } => self.to_write(place, at, end),
            Work::Compare { at } => self.to_compare(place, at),
            Work::WriteFront { at } => self.to_write_front(place, at),
            Work::CompareFront { at } => self.to_compare_front(place, at),
            Work::Leave => self.to_leave(place),
        }
    }
}
