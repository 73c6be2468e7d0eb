// Of crates/dfu_boot/src/trial/booting.rt, whose contracts are taken away.

//! Start of an image on a medium.

use crate::boot::trial::look;
use crate::slots::{Medium, OpenFault};

/// Chooses the image to start, carries out the operation that must come first, and returns the offset of the slot to run. Even if the
/// operation fails, some image is active afterwards, and one of the two images runs. On a medium without failures, the image on trial runs
/// as long as a try is left.
///
/// # Errors
///
/// The errors of `check` of slots: the medium has no active image. The medium is unchanged then.
///
/// # What the caller must keep to
///
/// - The medium has sectors, `tries` is at least 2, and a sector has room for `tries` marks and two more.
pub fn boot<M: Medium>(medium: &mut M, tries: u32) -> Result<u32, OpenFault> {
    debug_assert!(medium.sector() > 0 && tries >= 2);
    let standing = look(medium, tries)?;
    let starting = standing.start(medium, tries);
    match starting.operation {
        None => Ok(starting.slot),
        Some(operation) => {
            // The result is ignored, because `runs` reads the mark.
            let _ = operation.carry_out(medium);
            Ok(starting.runs(medium))
        }
    }
}
