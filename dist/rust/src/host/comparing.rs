// Of crates/dfu_host/src/comparing.rt, whose contracts are taken away.

//! The row of the phase that compares the image with the payload.

use crate::host::fetching::MOST_PARTS;
use crate::host::heard::Heard;
use crate::host::phase::Phase;
use crate::host::report::Report;
use crate::host::task::Task;

impl Task<'_> {
    /// Compares `part` of the image with block `number` of the payload, and returns the result with the part's length.
    pub(crate) fn compare(&self, number: u16, part: &[u8]) -> Heard {
        Heard::Compared {
            same: part == self.block(number as usize),
            len: part.len(),
        }
    }

    /// Returns the phase after the UPLOAD of part `number`. `heard` contains the comparison of the part; any other meaning leads to Find.
    pub(crate) fn after_compare(&self, number: u16, heard: Heard) -> Phase {
        match heard {
            Heard::Compared { same, len } => self.compared(number, same, len),
            _ => Phase::Find,
        }
    }

    /// Returns the phase after a part of `len` bytes; `same` is true if the part equals the payload's block.
    fn compared(&self, number: u16, same: bool, len: usize) -> Phase {
        let transfer = self.transfer as usize;
        if len > transfer {
            Phase::Find
        } else if !same {
            Phase::Last(Report::Different)
        } else if len < transfer {
            Phase::Last(Report::Verified)
        } else if number + 1 == MOST_PARTS {
            Phase::Over(Report::TooManyBlocks)
        } else {
            Phase::Compare(number + 1)
        }
    }
}
