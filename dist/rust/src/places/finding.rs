// Of crates/dfu_places/src/finding.rt, whose contracts are taken away.

//! Addresses of virtual bytes on a part.

use crate::places::placement::{bytes_at, span_at};
use crate::places::{Placement, Span};

/// Spot of a virtual byte: the rank of its gate, header or data, and the byte's offset there.
#[derive(Clone, Copy, Debug, PartialEq, Eq)]
pub(crate) struct Spot {
    pub rank: u32,
    pub offset: u32,
}

// Returns the number of virtual bytes of a slot.
fn slot_len(placement: &Placement) -> u32 {
    2 * placement.sector + placement.first.data.len
}

/// Returns the number of bytes of the virtual flash. It equals DFU_MEDIUM_SIZE for the unit, the virtual sector and the data bytes.
///
/// # What the caller must keep to
///
/// - The placement is one that `check` accepted.
pub fn virtual_len(placement: &Placement) -> u32 {
    2 * slot_len(placement)
}

// Returns the spot of byte `at` of a slot, whose gate has the rank `first`.
fn spot_in(sector: u32, first: u32, at: u32) -> Spot {
    if at < sector {
        Spot {
            rank: first,
            offset: at,
        }
    } else if at < 2 * sector {
        Spot {
            rank: first + 1,
            offset: at - sector,
        }
    } else {
        Spot {
            rank: first + 2,
            offset: at - 2 * sector,
        }
    }
}

fn spot_of(placement: &Placement, at: u32) -> Spot {
    let slot = slot_len(placement);
    if at < slot {
        spot_in(placement.sector, 0, at)
    } else {
        spot_in(placement.sector, 3, at - slot)
    }
}

/// Returns the address of the `len` virtual bytes from `at` on. None means that they do not all lie in the same gate, header or data, or
/// that not all are on the part.
///
/// # What the caller must keep to
///
/// - The placement is one that `check` accepted.
pub fn find(placement: &Placement, at: u32, len: u32) -> Option<u32> {
    let Spot { rank, offset } = spot_of(placement, at);
    if (bytes_at(placement, rank) as u64) < offset as u64 + len as u64 {
        None
    } else {
        Some(span_at(placement, rank).at + offset)
    }
}

/// Returns the sectors of the part that are erased for the virtual sector that begins at `at`: a whole gate or header, or one virtual
/// sector of data. None means that no virtual sector begins there.
///
/// # What the caller must keep to
///
/// - The placement is one that `check` accepted.
pub fn erased(placement: &Placement, at: u32) -> Option<Span> {
    let Spot { rank, offset } = spot_of(placement, at);
    let span = span_at(placement, rank);
    if rank == 2 || rank == 5 {
        if offset % placement.sector == 0 && offset < span.len {
            Some(Span {
                at: span.at + offset,
                len: placement.sector,
            })
        } else {
            None
        }
    } else if offset == 0 {
        Some(span)
    } else {
        None
    }
}
