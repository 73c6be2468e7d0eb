// Of crates/dfu_places/src/region.rt, whose contracts are taken away.

//! Regions of a part, and spans of its bytes.

/// Span of a part: `len` bytes from the address `at` on.
#[derive(Clone, Copy, Debug, PartialEq, Eq)]
pub struct Span {
    /// Address of the first byte.
    pub at: u32,
    /// Number of bytes.
    pub len: u32,
}

/// Sectors of one size at consecutive addresses. A part is a list of regions in the order of their addresses. Memory of another kind, such
/// as FRAM, is a region too: a sector of it is as many bytes as its driver sets to FFh at a time.
#[derive(Clone, Copy, Debug, PartialEq, Eq)]
pub struct Region {
    /// Address of the first byte.
    pub at: u32,
    /// Number of bytes of a sector, which are erased together.
    pub sector: u32,
    /// Number of sectors.
    pub count: u32,
}

/// Returns the address after a span's last byte.
pub(crate) fn end_of(span: Span) -> u64 {
    span.at as u64 + span.len as u64
}

/// Returns the address after a region's last byte. None means that it is 2^32 or more.
pub(crate) fn region_end(region: Region) -> Option<u32> {
    match region.sector.checked_mul(region.count) {
        Some(len) => region.at.checked_add(len),
        None => None,
    }
}

/// Returns true if two spans have no byte in common.
pub(crate) fn is_apart(a: Span, b: Span) -> bool {
    end_of(a) <= b.at as u64 || end_of(b) <= a.at as u64
}

/// Returns true if the regions are in the order of their addresses, have sectors, do not overlap, and end below 2^32.
pub(crate) fn are_regions(regions: &[Region]) -> bool {
    let mut from = 0u32;
    for region in regions {
        if region.sector == 0 || region.count == 0 || region.at < from {
            return false;
        }
        match region_end(*region) {
            Some(end) => from = end,
            None => return false,
        }
    }
    true
}

// Returns true if the span lies in the region, which ends below 2^32, and begins at a sector, and if `part` is a multiple of the sector
// size.
fn is_split(region: Region, part: u32, span: Span) -> bool {
    if region.sector == 0 || region.at > span.at {
        return false;
    }
    if (span.at - region.at) % region.sector != 0 || part % region.sector != 0 {
        return false;
    }
    match region_end(region) {
        Some(end) => end_of(span) <= end as u64,
        None => false,
    }
}

/// Returns true if the span lies in one region and begins at a sector, and if `part` is a multiple of that region's sector size.
pub(crate) fn is_whole(regions: &[Region], part: u32, span: Span) -> bool {
    for region in regions {
        if is_split(*region, part, span) {
            return true;
        }
    }
    false
}
