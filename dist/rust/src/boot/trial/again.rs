// Of crates/dfu_boot/src/trial/again.rt, whose contracts are taken away.

//! Derives the standing that an earlier `look` found, without reading the images.

use crate::boot::trial::marks::{is_set, starts};
use crate::boot::trial::{Settled, Standing, Trial};
use crate::slots::{Medium, Places, data_at, generation, is_open, is_sized};

// Returns the offsets of both slots, with the slot whose data begins at `at` as the active one. None means that no slot's data begins
// there.
fn places_by_data<M: Medium>(medium: &M, at: u32) -> Option<Places> {
    let second = medium.len() / 2;
    let gates = data_at(medium, 0);
    if at == gates {
        return Some(Places {
            active: 0,
            spare: second,
        });
    }
    if at == second + gates {
        return Some(Places {
            active: second,
            spare: 0,
        });
    }
    None
}

// Returns true if the slot at `places.active` is open, and the other slot is closed or one generation older. If the slot at `places.active`
// counts (`SlotCounts`), it is the newest then.
fn is_ahead<M: Medium>(medium: &M, places: Places) -> bool {
    if !is_open(medium, places.active) {
        return false;
    }
    !is_open(medium, places.spare)
        || generation(medium, places.active) == generation(medium, places.spare).wrapping_add(1)
}

/// Derives the standing that an earlier `look` found. The image at offset `at` was active then, and if it was on trial, the image at offset
/// `base` was the confirmed one. The call reads gates, headers and marks, and relies on the earlier `look` for the fact that both images
/// are whole. None means that no slot's data begins at `at`, that the other slot may be active now, or that an image may be on trial that
/// `look` did not report; call `look` then.
///
/// # What the caller must keep to
///
/// - The medium has sectors, `tries` is at least 2, and a sector has room for `tries` marks and two more.
pub fn look_again<M: Medium>(medium: &M, tries: u32, at: u32, base: Option<u32>) -> Option<Standing> {
    debug_assert!(medium.sector() > 0 && tries >= 2);
    if !is_sized(medium) {
        return None;
    }
    let places = places_by_data(medium, at)?;
    if !is_ahead(medium, places) {
        return None;
    }
    let slot = places.active;
    let is_confirmed = is_set(medium, slot, 0);
    if is_confirmed || !is_open(medium, places.spare) || !is_set(medium, places.spare, 0) {
        return Some(Standing::Settled(Settled { slot, is_confirmed }));
    }
    if base? != places.spare + (at - slot) {
        return None;
    }
    Some(Standing::OnTrial(Trial {
        slot,
        base: places.spare,
        starts: starts(medium, tries, slot),
    }))
}
