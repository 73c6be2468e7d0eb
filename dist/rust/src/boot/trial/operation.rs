// Of crates/dfu_boot/src/trial/operation.rt, whose contracts are taken away.

//! Operations of a trial, which the caller carries out.

use crate::slots::{Failed, Medium};

/// One operation on the medium, which the caller must carry out. It changes only bytes of its range, even if it fails.
#[derive(Clone, Copy, Debug, PartialEq, Eq)]
pub enum Operation {
    /// Program of zeros, at most 256, over a mark whose bytes are all FFh: the offset of the first byte, and the number of bytes.
    Mark(u32, u32),
    /// Erase of the sector at this offset, which closes a gate.
    Close(u32),
}

impl Operation {
    /// Carries out the operation on `medium`. Does not read the bytes afterwards, because the next `look` or `runs` does.
    ///
    /// # Errors
    ///
    /// `Failed` if the medium reported a failure.
    ///
    /// # What the caller must keep to
    ///
    /// - The medium takes it: the range lies within the length; a mark's place and length are multiples of the unit's
    ///   size, and its bytes are FFh and not written since the erase; a sector begins where one is erased.
    /// - A mark has at most 256 bytes.
    pub fn carry_out<M: Medium>(self, medium: &mut M) -> Result<(), Failed> {
        match self {
            Operation::Mark(at, len) => medium.write(at, &[0; 256][..len as usize]),
            Operation::Close(at) => medium.erase(at),
        }
    }
}
