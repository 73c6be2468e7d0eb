// Of crates/dfu_boot/src/trial/looking.rt, whose contracts are taken away.

//! Standing of the images on a medium, as `look` finds it.

use crate::boot::trial::marks::{is_set, starts};
use crate::boot::trial::{Settled, Standing, Trial};
use crate::slots::{Medium, OpenFault, check_both};

/// Finds the standing of the images on a medium. Reads each image once, as `check` of slots does.
///
/// # Errors
///
/// The errors of `check`: the medium has no active image.
///
/// # What the caller must keep to
///
/// - The medium has sectors, `tries` is at least 2, and a sector has room for `tries` marks and two more.
pub fn look<M: Medium>(medium: &M, tries: u32) -> Result<Standing, OpenFault> {
    debug_assert!(medium.sector() > 0 && tries >= 2);
    let both = check_both(medium)?;
    let slot = both.places.active;
    let base = both.places.spare;
    let is_confirmed = is_set(medium, slot, 0);
    if !is_confirmed && is_set(medium, base, 0) {
        if let Some(_) = both.spare_len {
            return Ok(Standing::OnTrial(Trial {
                slot,
                base,
                starts: starts(medium, tries, slot),
            }));
        }
    }
    Ok(Standing::Settled(Settled { slot, is_confirmed }))
}
