// Of crates/dfu_slots/src/places.rt, whose contracts are taken away.

//! Offsets of the active slot and of the spare slot on a medium.

use crate::slots::layout::is_sized;
use crate::slots::read::{counts, generation, header_len};
use crate::slots::{Medium, OpenFault};

/// Offsets of the active slot and of the spare slot, in bytes from the beginning of the medium.
#[derive(Clone, Copy, Debug, PartialEq, Eq)]
pub struct Places {
    /// Offset of the active slot's first byte.
    pub active: u32,
    /// Offset of the spare slot's first byte.
    pub spare: u32,
}

/// For each of the two slots, true if it counts in the sense of `OpenFault`.
#[derive(Clone, Copy, Debug, PartialEq, Eq)]
pub struct Counted {
    pub first: bool,
    pub second: bool,
}

/// Finds the slots that count. For an open slot of version 2 this reads the whole image once, to compute its CRC register.
pub(crate) fn count_slots<M: Medium>(medium: &M) -> Counted {
    Counted {
        first: counts(medium, 0),
        second: counts(medium, medium.len() / 2),
    }
}

/// Returns true if neither slot counts.
pub(crate) fn is_none(counted: Counted) -> bool {
    !counted.first && !counted.second
}

// Returns true if the slot at `mine` counts, and the slot at `other` doesn't count or is one generation older.
fn is_newest<M: Medium>(
    medium: &M,
    mine: u32,
    other: u32,
    mine_counts: bool,
    other_counts: bool,
) -> bool {
    mine_counts
        && (!other_counts || generation(medium, mine) == generation(medium, other).wrapping_add(1))
}

/// Returns the offsets of the slots. If `first` is true, the first slot is the active one, otherwise the second.
pub(crate) fn places_of<M: Medium>(medium: &M, first: bool) -> Places {
    let second = medium.len() / 2;
    if first {
        Places {
            active: 0,
            spare: second,
        }
    } else {
        Places {
            active: second,
            spare: 0,
        }
    }
}

/// Returns the offsets of the active slot and of the spare slot. If neither slot is the newest, it returns the second slot as active.
pub(crate) fn find_places<M: Medium>(medium: &M, counted: Counted) -> Places {
    let second = medium.len() / 2;
    let first = is_newest(medium, 0, second, counted.first, counted.second);
    places_of(medium, first)
}

/// Returns true if the slot at `places.active` is the newest one.
pub(crate) fn has_newest<M: Medium>(medium: &M, places: Places, counted: Counted) -> bool {
    let Places { active, spare } = places;
    if active == 0 {
        is_newest(medium, active, spare, counted.first, counted.second)
    } else {
        is_newest(medium, active, spare, counted.second, counted.first)
    }
}

/// Returns the offsets of the active slot and of the spare slot.
pub(crate) fn look<M: Medium>(medium: &M) -> Places {
    find_places(medium, count_slots(medium))
}

/// Returns the offsets of the two slots of a medium that has an active image.
///
/// # Errors
///
/// The first fault of the medium, in the order of `OpenFault`.
pub fn check<M: Medium>(medium: &M) -> Result<Places, OpenFault> {
    if !is_sized(medium) {
        return Err(OpenFault::WrongSize);
    }
    let counted = count_slots(medium);
    if is_none(counted) {
        return Err(OpenFault::NoImage);
    }
    let places = find_places(medium, counted);
    if !has_newest(medium, places, counted) {
        return Err(OpenFault::TwoImages);
    }
    match header_len(medium, places.active) {
        Some(_) => Ok(places),
        None => Err(OpenFault::BadHeader),
    }
}
