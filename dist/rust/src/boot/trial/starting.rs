// Of crates/dfu_boot/src/trial/starting.rt, whose contracts are taken away.

//! Choice of the image that starts at a power on, and of the operation before it.

use crate::boot::trial::marks::{is_marked, mark_at, mark_size};
use crate::boot::trial::{Operation, Standing};
use crate::slots::Medium;

/// Choice of the image that starts, with the operation that the caller must carry out first.
#[derive(Clone, Copy, Debug, PartialEq, Eq)]
pub struct Starting {
    /// Operation to carry out before the start, or None.
    pub operation: Option<Operation>,
    /// Offset of the slot that runs after the operation. After a mark, it runs only if the mark reads as set.
    pub slot: u32,
    /// Offset of the slot that runs if the mark does not read as set. Equal to `slot` if there is no mark.
    pub otherwise: u32,
}

impl Standing {
    /// Returns the image that starts, and the operation that must come first. On trial, that is the mark of the next start, or if no try is
    /// left, the erase that closes the gate of the slot on trial. After the operation, `Starting::runs` returns the slot that runs.
    ///
    /// # What the caller must keep to
    ///
    /// - The medium has sectors, `tries` is at least 2, and a sector has room for `tries` marks and two more.
    /// - It is what `look` or `look_again` found on this medium with the same `tries`, and nothing was written since.
    pub fn start<M: Medium>(self, medium: &M, tries: u32) -> Starting {
        debug_assert!(medium.sector() > 0 && tries >= 2);
        match self {
            Standing::Settled(settled) => Starting {
                operation: None,
                slot: settled.slot,
                otherwise: settled.slot,
            },
            Standing::OnTrial(trial) => {
                if trial.starts < tries {
                    let mark = mark_at(medium, trial.slot, trial.starts + 1);
                    Starting {
                        operation: Some(Operation::Mark(mark, mark_size(medium))),
                        slot: trial.slot,
                        otherwise: trial.base,
                    }
                } else {
                    Starting {
                        operation: Some(Operation::Close(trial.slot)),
                        slot: trial.base,
                        otherwise: trial.base,
                    }
                }
            }
        }
    }
}

impl Starting {
    /// Returns the offset of the slot that runs, after the operation was carried out with any outcome. Reads the mark if the operation is a
    /// mark.
    ///
    /// # What the caller must keep to
    ///
    /// - A mark of the operation lies within the medium, and has at most 256 bytes.
    pub fn runs<M: Medium>(self, medium: &M) -> u32 {
        match self.operation {
            Some(Operation::Mark(at, len)) => {
                if is_marked(medium, at, len) {
                    self.slot
                } else {
                    self.otherwise
                }
            }
            _ => self.slot,
        }
    }
}
