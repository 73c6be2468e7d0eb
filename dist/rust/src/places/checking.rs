// Of crates/dfu_places/src/checking.rt, whose contracts are taken away.

//! Check of the rules of a placement.

use crate::places::placement::{bytes_at, part_at, room_at, span_at, things};
use crate::places::refusal::thing_of;
use crate::places::region::{are_regions, is_apart, is_whole};
use crate::places::{Needs, Placement, PlacementRefusal, Region, Span, Thing};
use crate::slots::MAX_SECTOR;

/// Largest number of data bytes of a slot.
pub(crate) const MAX_CAPACITY: u32 = 1 << 24;

fn is_sector_size(sector: u32) -> bool {
    sector % 256 == 0 && sector > 0 && sector <= MAX_SECTOR
}

fn is_capacity(sector: u32, len: u32) -> bool {
    len > 0 && len <= MAX_CAPACITY && len % sector == 0
}

// Returns true if the run area has `len` bytes, or if there is no run area.
fn is_run_equal(run: Option<Span>, len: u32) -> bool {
    match run {
        Some(span) => span.len == len,
        None => true,
    }
}

// Returns the rank of the first `Thing` that does not consist of whole sectors of one region, or None.
fn first_not_whole(regions: &[Region], placement: &Placement) -> Option<u32> {
    for i in 0..things(placement) {
        if !is_whole(regions, part_at(placement, i), span_at(placement, i)) {
            return Some(i);
        }
    }
    None
}

// Returns the rank of the first `Thing` with fewer bytes than it needs, or None.
fn first_not_roomy(needs: Needs, placement: &Placement) -> Option<u32> {
    for i in 0..things(placement) {
        if (bytes_at(placement, i) as u64) < room_at(needs, i) {
            return Some(i);
        }
    }
    None
}

// Returns the rank of the first `Thing` that overlaps the bootloader, or None.
fn first_in_boot(boot: Span, placement: &Placement) -> Option<u32> {
    for i in 0..things(placement) {
        if !is_apart(boot, span_at(placement, i)) {
            return Some(i);
        }
    }
    None
}

// Returns the lowest rank, below `j`, of a `Thing` that overlaps the one of rank `j`, or None.
fn first_met(placement: &Placement, j: u32) -> Option<u32> {
    for i in 0..j {
        if !is_apart(span_at(placement, j), span_at(placement, i)) {
            return Some(i);
        }
    }
    None
}

// Returns the ranks of the first two overlapping spans, or None. The second rank is the lowest one whose span overlaps a span of lower
// rank.
fn first_meeting(placement: &Placement) -> Option<(u32, u32)> {
    for j in 0..things(placement) {
        if let Some(i) = first_met(placement, j) {
            return Some((i, j));
        }
    }
    None
}

// Checks the regions and the sizes of a placement. The refusal names the first broken rule.
fn check_sizes(regions: &[Region], placement: &Placement) -> Result<(), PlacementRefusal> {
    if !are_regions(regions) {
        return Err(PlacementRefusal::BadRegions);
    }
    if !is_sector_size(placement.sector) {
        return Err(PlacementRefusal::BadSector);
    }
    let len = placement.first.data.len;
    if !is_capacity(placement.sector, len) {
        return Err(PlacementRefusal::BadCapacity);
    }
    if placement.second.data.len != len {
        return Err(PlacementRefusal::Unequal(Thing::SecondData));
    }
    if !is_run_equal(placement.run, len) {
        return Err(PlacementRefusal::Unequal(Thing::RunArea));
    }
    Ok(())
}

/// Checks a placement on a part with these regions. The refusal names the first of these rules that the placement breaks. Each rule is
/// checked for all gates, headers, data and the run area, in the order of `Thing`, before the next rule:
///
/// 1. `BadRegions`: the regions have sectors, are in the order of their addresses, do not overlap, and end below 2^32.
/// 2. `BadSector`: the virtual sector is a multiple of 256, from 256 to 262,144 bytes.
/// 3. `BadCapacity`: the first data are whole virtual sectors, 1 to 16,777,216 bytes.
/// 4. `Unequal`: the second data and the run area have as many bytes as the first data.
/// 5. `NotWhole`: each `Thing` lies in one region, begins at a sector, and consists of whole sectors. In data, each virtual sector
///    consists of whole sectors.
/// 6. `NoRoom`: a gate has at least 16 bytes, or a unit if that is more. A header has room for as many bytes and the marks.
/// 7. `InBootloader`: no `Thing` has a byte in common with the bootloader, and therefore none has a sector in common with it.
/// 8. `Shared`: no two of these spans have a byte in common, and therefore no two have a sector in common.
pub fn check(
    regions: &[Region],
    needs: Needs,
    placement: &Placement,
) -> Result<(), PlacementRefusal> {
    check_sizes(regions, placement)?;
    if let Some(i) = first_not_whole(regions, placement) {
        return Err(PlacementRefusal::NotWhole(thing_of(i)));
    }
    if let Some(i) = first_not_roomy(needs, placement) {
        return Err(PlacementRefusal::NoRoom(thing_of(i)));
    }
    if let Some(i) = first_in_boot(needs.boot, placement) {
        return Err(PlacementRefusal::InBootloader(thing_of(i)));
    }
    if let Some((i, j)) = first_meeting(placement) {
        return Err(PlacementRefusal::Shared(thing_of(i), thing_of(j)));
    }
    Ok(())
}
