// Of crates/dfu_boot/src/trial/ending.rt, whose contracts are taken away.

//! End of a trial, on request or before an upload.

use crate::boot::trial::{Operation, Standing};
use crate::slots::Medium;

impl Standing {
    /// Returns the operation that ends the trial, by closing the gate of the slot on trial. None means that no image is on trial. Does not
    /// read the medium.
    ///
    /// A download must end the trial before it opens the store and calls `begin`. Before the end, the store's spare slot is that of the
    /// confirmed image, which `begin` would close.
    ///
    /// # What the caller must keep to
    ///
    /// - The medium has sectors, `tries` is at least 2, and a sector has room for `tries` marks and two more.
    /// - It is what `look` found on this medium with the same `tries`, and nothing was written since.
    pub fn end<M: Medium>(self, _medium: &M, tries: u32) -> Option<Operation> {
        debug_assert!(_medium.sector() > 0 && tries >= 2);
        match self {
            Standing::Settled(_) => None,
            Standing::OnTrial(trial) => Some(Operation::Close(trial.slot)),
        }
    }
    /// Returns the operation that must come before an upload. If no try is left, the operation ends the trial, as the next start would, so
    /// that the host reads the image that the next start runs. None means that no image is on trial, or that a try is left. Does not read
    /// the medium.
    ///
    /// # What the caller must keep to
    ///
    /// - The medium has sectors, `tries` is at least 2, and a sector has room for `tries` marks and two more.
    /// - It is what `look` found on this medium with the same `tries`, and nothing was written since.
    pub fn upload<M: Medium>(self, _medium: &M, tries: u32) -> Option<Operation> {
        debug_assert!(_medium.sector() > 0 && tries >= 2);
        match self {
            Standing::Settled(_) => None,
            Standing::OnTrial(trial) => {
                if trial.starts < tries {
                    None
                } else {
                    Some(Operation::Close(trial.slot))
                }
            }
        }
    }
}
