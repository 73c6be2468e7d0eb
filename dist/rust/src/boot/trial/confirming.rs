// Of crates/dfu_boot/src/trial/confirming.rt, whose contracts are taken away.

//! Confirmation of a running image.

use crate::boot::trial::marks::{mark_at, mark_size};
use crate::boot::trial::{Operation, Standing};
use crate::slots::{Medium, data_at};

/// Result of `confirm` for the running image.
#[derive(Clone, Copy, Debug, PartialEq, Eq)]
pub enum Confirmation {
    /// The image is confirmed once the caller has carried out this operation.
    By(Operation),
    /// The image is confirmed already.
    Confirmed,
    /// No image that may run begins at the given offset.
    Elsewhere,
}

// Returns the operation that sets the confirmation mark of the slot at offset `slot`.
fn by_mark<M: Medium>(medium: &M, slot: u32) -> Confirmation {
    Confirmation::By(Operation::Mark(mark_at(medium, slot, 0), mark_size(medium)))
}

impl Standing {
    /// Returns the `Confirmation` of the running image, which begins at the offset `at`, as `image_at` of a store returns it. If the
    /// confirmed image runs because the mark of a start failed, its offset is not that of the image on trial, and the image on trial is not
    /// confirmed.
    ///
    /// # What the caller must keep to
    ///
    /// - The medium has sectors, `tries` is at least 2, and a sector has room for `tries` marks and two more.
    /// - It is what `look` found on this medium with the same `tries`, and nothing was written since.
    pub fn confirm<M: Medium>(self, medium: &M, tries: u32, at: u32) -> Confirmation {
        debug_assert!(medium.sector() > 0 && tries >= 2);
        match self {
            Standing::Settled(settled) => {
                if at != data_at(medium, settled.slot) {
                    return Confirmation::Elsewhere;
                }
                if settled.is_confirmed {
                    return Confirmation::Confirmed;
                }
                by_mark(medium, settled.slot)
            }
            Standing::OnTrial(trial) => {
                if at == data_at(medium, trial.slot) {
                    return by_mark(medium, trial.slot);
                }
                if at == data_at(medium, trial.base) {
                    return Confirmation::Confirmed;
                }
                Confirmation::Elsewhere
            }
        }
    }
}
