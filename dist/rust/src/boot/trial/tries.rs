// Of crates/dfu_boot/src/trial/tries.rt, whose contracts are taken away.

//! Numbers of tries that a medium allows.

use crate::boot::trial::marks::mark_size;
use crate::slots::Medium;
use thiserror::Error;

/// Reason for which a number of tries is refused. The reasons are checked in this order.
#[derive(Clone, Copy, Debug, PartialEq, Eq, Error)]
pub enum TriesFault {
    /// The medium has no sectors, and therefore no marks that are erased with a header.
    #[error("the medium has no sectors, so no room for marks")]
    NoSectors,
    /// The number of tries is below 2. A download that the host verifies starts the new image twice.
    #[error("a trial has two tries at least")]
    TooFew,
    /// The header, the confirmation mark and one mark for each try don't fit in a sector. Each of these takes a write unit, at least 16
    /// bytes.
    #[error("a sector has no room for so many tries")]
    TooMany,
}

/// Checks that an image of `medium` can have `tries` tries: at least 2, and marks that fit in a sector.
///
/// # Errors
///
/// The first fault, in the order of `TriesFault`.
pub fn check_tries<M: Medium>(medium: &M, tries: u32) -> Result<(), TriesFault> {
    let sector = medium.sector();
    if sector == 0 {
        return Err(TriesFault::NoSectors);
    }
    if tries < 2 {
        return Err(TriesFault::TooFew);
    }
    let size = mark_size(medium);
    if (u64::from(tries) + 2) * u64::from(size) > u64::from(sector) {
        return Err(TriesFault::TooMany);
    }
    Ok(())
}
