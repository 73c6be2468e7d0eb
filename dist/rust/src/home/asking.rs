// Of crates/dfu_home/src/asking.rt, whose contracts are taken away.

//! Test that the active image is in the first slot.
use crate::slots::{Medium, check};

/// Returns true if the active image is in the first slot, false if it is in the second one, and None exactly if the medium has no active
/// image. The call reads the image of each open slot once.
///
/// A program that runs from the first slot may accept a download only if the result is true, because a download then writes the second
/// slot, which is the spare one. Once a download is complete, its image is active in the second slot, so the result is false: another
/// download would overwrite the first slot, from which the program runs.
pub fn is_home<M: Medium>(medium: &M) -> Option<bool> {
    match check(medium) {
        Ok(places) => {
            if places.active == 0 {
                Some(true)
            } else {
                Some(false)
            }
        }
        Err(_) => None,
    }
}
