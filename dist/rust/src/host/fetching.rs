// Of crates/dfu_host/src/fetching.rt, whose contracts are taken away.

//! The rows of the phases that fetch the image, and the parts to keep.

use crate::host::heard::Heard;
use crate::host::part::UploadPart;
use crate::host::phase::Phase;
use crate::host::report::Report;
use crate::host::task::Task;

/// Number of full parts after which an upload ends without its image, and a comparison without its verdict. This project chose the limit.
pub(crate) const MOST_PARTS: u16 = 65_535;

impl Task<'_> {
    /// Returns the meaning of a part of the image: NoRoom if the caller refused a part that has bytes and must be kept, else the part's
    /// length.
    pub(crate) fn received(&self, number: u16, part: &[u8], refused: bool) -> Heard {
        if refused && !part.is_empty() && self.is_kept(number, part.len()) {
            Heard::NoRoom
        } else {
            Heard::Part(part.len())
        }
    }

    /// Returns the part to keep from `bytes`, which answer the UPLOAD of part `number`; None if the part is too long, or is the full part
    /// that is one too many.
    pub(crate) fn part_in<'s>(&self, number: u16, bytes: &'s [u8]) -> Option<UploadPart<'s>> {
        if self.is_kept(number, bytes.len()) {
            Some(UploadPart { number, bytes })
        } else {
            None
        }
    }

    /// Returns true if part `number` of `len` bytes is kept: a full part, or a shorter one, which is the last. The full part that is one
    /// too many is not kept.
    fn is_kept(&self, number: u16, len: usize) -> bool {
        let transfer = self.transfer as usize;
        len < transfer || len == transfer && number + 1 != MOST_PARTS
    }

    /// Returns the phase after the UPLOAD of part `number`. If the part in `heard` must be kept, it is kept already.
    pub(crate) fn after_fetch(&self, number: u16, heard: Heard) -> Phase {
        match heard {
            Heard::Part(len) => self.fetched(number, len),
            Heard::NoRoom => Phase::Over(Report::NoMemory),
            _ => Phase::Find,
        }
    }

    /// Returns the phase after part `number` of `len` bytes.
    fn fetched(&self, number: u16, len: usize) -> Phase {
        let transfer = self.transfer as usize;
        if len < transfer {
            Phase::LastUploaded
        } else if len > transfer {
            Phase::Find
        } else if number + 1 == MOST_PARTS {
            Phase::Over(Report::TooManyBlocks)
        } else {
            Phase::Fetch(number + 1)
        }
    }

    /// Returns the phase after the last reset of an upload, with all fetched bytes kept. After any result other than a reset, the host
    /// resets the bus again.
    pub(crate) fn after_last_uploaded(&self, heard: Heard) -> Phase {
        match heard {
            Heard::WasReset => Phase::OverUploaded,
            _ => Phase::LastUploaded,
        }
    }
}
