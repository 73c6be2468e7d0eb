// Of crates/dfu_slots/src/both.rt, whose contracts are taken away.

//! Checks a medium, and also finds the image in the spare slot.

use crate::slots::layout::is_sized;
use crate::slots::places::{Counted, count_slots, find_places, has_newest, is_none};
use crate::slots::read::header_len;
use crate::slots::{Medium, OpenFault, Places};

/// Offsets of the two slots of a medium with an active image, and the length of the image in the spare slot, if that slot holds one.
#[derive(Clone, Copy, Debug, PartialEq, Eq)]
pub struct Both {
    /// Offsets of the active slot and of the spare slot.
    pub places: Places,
    /// Length in bytes of the image in the spare slot; None if the slot doesn't count or its header is not well formed.
    pub spare_len: Option<u32>,
}

// Returns the length of the image in the spare slot; None if the slot doesn't count or its header is not well formed.
fn spare_len<M: Medium>(medium: &M, spare: u32, counted: Counted) -> Option<u32> {
    let counts = if spare == 0 {
        counted.first
    } else {
        counted.second
    };
    if !counts {
        return None;
    }
    header_len(medium, spare)
}

/// Returns the offsets of the two slots of a medium with an active image, and the length of the image in the spare slot, if that slot holds
/// one. Reads only bytes that `check` reads too.
///
/// # Errors
///
/// The first fault of the medium, in the order of `OpenFault`.
pub fn check_both<M: Medium>(medium: &M) -> Result<Both, OpenFault> {
    if !is_sized(medium) {
        return Err(OpenFault::WrongSize);
    }
    let counted = count_slots(medium);
    if is_none(counted) {
        return Err(OpenFault::NoImage);
    }
    let places = find_places(medium, counted);
    if !has_newest(medium, places, counted) {
        return Err(OpenFault::TwoImages);
    }
    match header_len(medium, places.active) {
        Some(_) => Ok(Both {
            places,
            spare_len: spare_len(medium, places.spare, counted),
        }),
        None => Err(OpenFault::BadHeader),
    }
}
