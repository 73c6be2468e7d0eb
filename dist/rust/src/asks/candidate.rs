// Of crates/dfu_asks/src/candidate.rt, whose contracts are taken away.

//! Location of a received image that is not active yet, in the flash of a device that requests its writes from the caller.

use crate::asks::noted::look;
use crate::asks::{Asking, Mapped, Refusal};
use crate::device::Candidate;
use crate::slots::data_at;

impl Asking {
    /// Returns the location of the received image, as `Device::candidate` does. The flash contains the image's first bytes; its last
    /// `held_len` bytes are held back.
    ///
    /// # Errors
    ///
    /// The errors of `elapse`, except that the memory of the block is not checked.
    pub fn candidate(&self, flash: &[u8]) -> Result<Option<Candidate>, Refusal> {
        if self.work.is_some() {
            return Err(Refusal::Asked);
        }
        let Some(medium) = Mapped::with_sector(flash, self.unit, self.sector) else {
            return Err(Refusal::NoMedium);
        };
        let Some(view) = look(&medium, &self.noted) else {
            return Err(Refusal::NoMedium);
        };
        let Some(len) = self.mode.candidate_len() else {
            return Ok(None);
        };
        if len > view.room {
            return Err(Refusal::NoDevice);
        }
        Ok(Some(Candidate {
            at: data_at(&medium, view.spare),
            stored: len - len % self.unit.size(),
        }))
    }
}
