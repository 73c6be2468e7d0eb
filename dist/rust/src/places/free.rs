// Of crates/dfu_places/src/free.rt, whose contracts are taken away.

//! Free sectors of a part. A plan takes the smallest of them for gates and headers.

use crate::places::placement::room_at;
use crate::places::region::end_of;
use crate::places::{Needs, Region, Span};

/// Number of gates and headers of a placement.
pub(crate) const HEADS: u32 = 4;

/// Free sectors of a region, at consecutive addresses.
#[derive(Clone, Copy, Debug, PartialEq, Eq)]
pub(crate) struct Free {
    /// Address of the first sector.
    pub at: u32,
    /// Number of bytes of each sector.
    pub sector: u32,
    /// Number of sectors.
    pub count: u32,
}

impl Free {
    /// Returns the free sectors that remain after the first `taken` ones.
    pub(crate) fn behind(self, taken: u32) -> Free {
        Free {
            at: self.at.saturating_add(self.sector.saturating_mul(taken)),
            sector: self.sector,
            count: self.count.saturating_sub(taken),
        }
    }
}

/// Returns the sectors of a region that have no byte in common with the bootloader. If such sectors lie before and after the bootloader,
/// returns the larger of the two groups, or the later one if both are equal.
pub(crate) fn free_of(region: Region, boot: Span) -> Free {
    let Region { at, sector, count } = region;
    let all = Free { at, sector, count };
    let end = end_of(boot);
    if sector == 0 || end <= at as u64 {
        return all;
    }
    let before = boot.at.saturating_sub(at) / sector;
    if before >= count {
        return all;
    }
    let taken = (end - at as u64).div_ceil(sector as u64);
    let behind = all.behind(taken.min(count as u64) as u32);
    if before > behind.count {
        Free {
            at,
            sector,
            count: before,
        }
    } else {
        behind
    }
}

// Returns true if gates and headers take sectors of region `a` before those of region `b`: the sectors of `a` are smaller, or they have the
// same size and region `a` is earlier in the list.
fn is_first(a: Region, i: usize, b: Region, j: usize) -> bool {
    a.sector < b.sector || a.sector == b.sector && i < j
}

// Returns the free sectors of a region that gates and headers may take: all if a sector has room for a header and its marks, else none.
fn heads_of(region: Region, needs: Needs) -> Free {
    let free = free_of(region, needs.boot);
    if (region.sector as u64) < room_at(needs, 1) {
        free.behind(free.count)
    } else {
        free
    }
}

// Returns the number of gates and headers, at most 4, that take sectors of other regions before they take those of region `j`.
fn taken_before(regions: &[Region], needs: Needs, j: usize) -> u32 {
    let mut taken = 0u32;
    for (i, region) in regions.iter().enumerate() {
        if is_first(*region, i, regions[j], j) {
            taken = taken.saturating_add(heads_of(*region, needs).count);
        }
    }
    taken.min(HEADS)
}

/// Returns the sector for gate or header number 0 to 3, or None if no free sector remains for it.
pub(crate) fn head(regions: &[Region], needs: Needs, number: u32) -> Option<Span> {
    for (j, region) in regions.iter().enumerate() {
        let before = taken_before(regions, needs, j);
        let free = heads_of(*region, needs);
        if before <= number && number - before < free.count {
            return Some(Span {
                at: free.behind(number - before).at,
                len: region.sector,
            });
        }
    }
    None
}

/// Returns the free sectors of region `j` that remain after those of gates and headers.
pub(crate) fn rest_of(regions: &[Region], needs: Needs, j: usize) -> Free {
    let taken = HEADS.saturating_sub(taken_before(regions, needs, j));
    let heads = heads_of(regions[j], needs).count;
    free_of(regions[j], needs.boot).behind(taken.min(heads))
}
