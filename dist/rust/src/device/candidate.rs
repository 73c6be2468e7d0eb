// Of crates/dfu_device/src/candidate.rt, whose contracts are taken away.

//! An image that was received and is not active yet.

use crate::device::Device;
use crate::device::device_core::DeviceCore;
use crate::slots::Medium;

/// An image that was received and is not active yet. Its first bytes are on the medium, in the spare slot. The others, fewer than a unit of
/// the medium, are held back in memory (`Slots::held`).
#[derive(Clone, Copy, Debug, PartialEq, Eq)]
pub struct Candidate {
    /// Offset of the image's first byte on the medium.
    pub at: u32,
    /// Number of the image's bytes on the medium.
    pub stored: u32,
}

impl<M: Medium> Device<M> {
    /// Returns the location of the received image, so that the program can check it before it calls `refuse_close` or `refuse`. Returns
    /// Some in dfuDNLOAD-IDLE, in dfuMANIFEST-SYNC before manifestation is complete, and in dfuMANIFEST, otherwise None. The call reads and
    /// writes no byte of the medium.
    pub fn candidate(&self) -> Option<Candidate> {
        self.core.candidate()
    }
}

impl<M: Medium> DeviceCore<M> {
    fn candidate(&self) -> Option<Candidate> {
        let len = self.mode.candidate_len()?;
        // The result is not used: its postcondition `store` proves that fewer bytes are held back than fill a unit.
        let _ = self.slots.held();
        let medium = self.slots.medium();
        let half = medium.len() / 2;
        // The data begins at the same offset within both slots.
        let image = self.slots.image_at();
        let at = if image < half {
            image + half
        } else {
            image - half
        };
        Some(Candidate {
            at,
            stored: len - len % medium.unit().size(),
        })
    }
}
