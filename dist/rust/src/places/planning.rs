// Of crates/dfu_places/src/planning.rt, whose contracts are taken away.

//! Plan of a placement with the largest data.

use crate::places::checking::MAX_CAPACITY;
use crate::places::free::{Free, head, rest_of};
use crate::places::region::are_regions;
use crate::places::{Needs, Placement, PlacementRefusal, Region, SlotPlaces, Span, check};
use crate::slots::{MAX_SECTOR, PAGE};

/// Areas of a plan: two slots, or two slots and a run area.
#[derive(Clone, Copy, Debug, PartialEq, Eq)]
pub enum Areas {
    /// Two slots, and images run from the data of the first slot.
    Two,
    /// Two slots and a run area, to which images are copied before they start.
    Three,
}

// Sizes of a plan: number of bytes of a virtual sector, and of the data of a slot.
#[derive(Clone, Copy, Debug, PartialEq, Eq)]
struct Sizes {
    sector: u32,
    len: u32,
}

// Returns the number of areas that fit into the free sectors one after the other; 0 if a virtual sector does not consist of whole sectors.
fn areas_in(free: Free, sizes: Sizes) -> u32 {
    if free.sector == 0 || sizes.len == 0 || sizes.sector % free.sector != 0 {
        return 0;
    }
    free.sector.saturating_mul(free.count) / sizes.len
}

// Returns the span of area `number`, from 0 on, or None if the free sectors have no room for so many areas.
fn area(regions: &[Region], needs: Needs, sizes: Sizes, number: u32) -> Option<Span> {
    let mut before = 0u32;
    for j in 0..regions.len() {
        let free = rest_of(regions, needs, j);
        let count = areas_in(free, sizes);
        if before <= number && number - before < count {
            let at = free
                .at
                .saturating_add(sizes.len.saturating_mul(number - before));
            return Some(Span { at, len: sizes.len });
        }
        before = before.saturating_add(count);
    }
    None
}

// Returns the virtual sector for data in sectors of `sector` bytes: the same size, or 256 if `sector` divides 256. Returns 0 if the store
// allows neither.
fn virtual_sector(sector: u32) -> u32 {
    if sector == 0 || sector > MAX_SECTOR {
        0
    } else if sector % PAGE == 0 {
        sector
    } else if PAGE % sector == 0 {
        PAGE
    } else {
        0
    }
}

// Returns the sizes for `bytes` bytes of data, rounded down to whole virtual sectors and limited to the largest capacity. Returns `best` if
// these data are not longer than those of `best`, or if `areas` such areas do not fit.
fn larger(
    regions: &[Region],
    needs: Needs,
    areas: u32,
    best: Sizes,
    bytes: u32,
    sector: u32,
) -> Sizes {
    let whole = bytes.min(MAX_CAPACITY);
    let sizes = Sizes {
        sector,
        len: whole - whole % sector,
    };
    if sizes.len > best.len && area(regions, needs, sizes, areas.saturating_sub(1)).is_some() {
        sizes
    } else {
        best
    }
}

// Returns the sizes with the longest data. The candidates are `best`, and all, a half and a third of the free bytes of each region.
fn largest(regions: &[Region], needs: Needs, areas: u32, sector: u32, best: Sizes) -> Sizes {
    let mut best = best;
    for j in 0..regions.len() {
        let free = rest_of(regions, needs, j);
        let bytes = free.sector.saturating_mul(free.count);
        best = larger(regions, needs, areas, best, bytes, sector);
        best = larger(regions, needs, areas, best, bytes / 2, sector);
        best = larger(regions, needs, areas, best, bytes / 3, sector);
    }
    best
}

// Returns the sizes with the longest data, for the virtual sector of any region. Both sizes are 0 if nothing fits.
fn best_sizes(regions: &[Region], needs: Needs, areas: u32) -> Sizes {
    let mut best = Sizes { sector: 0, len: 0 };
    for region in regions {
        let sector = virtual_sector(region.sector);
        if sector > 0 {
            best = largest(regions, needs, areas, sector, best);
        }
    }
    best
}

// Returns the spans of slot 0 or 1, or None if there is no room for its gate, header or data.
fn slot(regions: &[Region], needs: Needs, sizes: Sizes, number: u32) -> Option<SlotPlaces> {
    Some(SlotPlaces {
        gate: head(regions, needs, 2 * number)?,
        header: head(regions, needs, 2 * number + 1)?,
        data: area(regions, needs, sizes, number)?,
    })
}

// Returns the placement of a plan, which is not checked yet, or None if there is no room for a gate, a header or an area.
fn placed(regions: &[Region], needs: Needs, areas: Areas) -> Option<Placement> {
    let sizes = best_sizes(regions, needs, if let Areas::Two = areas { 2 } else { 3 });
    Some(Placement {
        sector: sizes.sector,
        first: slot(regions, needs, sizes, 0)?,
        second: slot(regions, needs, sizes, 1)?,
        run: match areas {
            Areas::Two => None,
            Areas::Three => Some(area(regions, needs, sizes, 2)?),
        },
    })
}

/// Plans the placement with the largest data on a part with these regions. Gates and headers take the smallest free sectors. The areas lie
/// in the remaining sectors, each in one region. A placement made by hand may allow a larger image.
///
/// The result is a placement that `check` accepts. `BadRegions`: as in `check`. `NoPlacement`: the sectors are too few, or too unequal.
pub fn plan(regions: &[Region], needs: Needs, areas: Areas) -> Result<Placement, PlacementRefusal> {
    if !are_regions(regions) {
        return Err(PlacementRefusal::BadRegions);
    }
    match placed(regions, needs, areas) {
        Some(placement) => match check(regions, needs, &placement) {
            Ok(()) => Ok(placement),
            Err(_) => Err(PlacementRefusal::NoPlacement),
        },
        None => Err(PlacementRefusal::NoPlacement),
    }
}
