// Of crates/dfu_places/src/refusal.rt, whose contracts are taken away.

//! Refusals of a placement.

use core::fmt;
use thiserror::Error;

/// Gate, header, data or run area, to which a placement assigns a span of the part.
#[derive(Clone, Copy, Debug, PartialEq, Eq)]
pub enum Thing {
    /// Gate of the first slot.
    FirstGate,
    /// Header of the first slot.
    FirstHeader,
    /// Data of the first slot.
    FirstData,
    /// Gate of the second slot.
    SecondGate,
    /// Header of the second slot.
    SecondHeader,
    /// Data of the second slot.
    SecondData,
    /// Run area, to which images are copied before they start.
    RunArea,
}

/// Names of the values of `Thing`, in the order of the enum.
static NAMES: [&str; 7] = [
    "the first gate",
    "the first header",
    "the first data",
    "the second gate",
    "the second header",
    "the second data",
    "the run area",
];

impl fmt::Display for Thing {
    fn fmt(&self, f: &mut fmt::Formatter<'_>) -> fmt::Result {
        f.write_str(NAMES[*self as usize])
    }
}

/// Returns the `Thing` of a rank: 0 for `FirstGate` up to 6 for `RunArea`.
pub(crate) fn thing_of(i: u32) -> Thing {
    if i == 0 {
        Thing::FirstGate
    } else if i == 1 {
        Thing::FirstHeader
    } else if i == 2 {
        Thing::FirstData
    } else if i == 3 {
        Thing::SecondGate
    } else if i == 4 {
        Thing::SecondHeader
    } else if i == 5 {
        Thing::SecondData
    } else {
        Thing::RunArea
    }
}

/// Refusal of a placement: the first broken rule in this order, and the first `Thing` that breaks it in the order of the enum.
#[derive(Clone, Copy, Debug, PartialEq, Eq, Error)]
pub enum PlacementRefusal {
    /// A region has no sectors, ends at 2^32 or above, or begins before the end of the previous region.
    #[error("the regions are empty, overlap or are out of order")]
    BadRegions,
    /// The virtual sector is not a multiple of 256 from 256 to 262,144 bytes.
    #[error("the virtual sector is not a multiple of 256 bytes up to 262,144")]
    BadSector,
    /// The first data are empty, longer than 16,777,216 bytes, or not whole virtual sectors.
    #[error("the data are none, too large, or not whole virtual sectors")]
    BadCapacity,
    /// This `Thing`, the second data or the run area, has another length than the first data.
    #[error("{0} has another length than the first data")]
    Unequal(Thing),
    /// This `Thing` does not lie in one region, does not begin at a sector, or does not consist of whole sectors. In data each virtual
    /// sector must consist of whole sectors.
    #[error("{0} is not whole sectors of one region")]
    NotWhole(Thing),
    /// This `Thing` has fewer bytes than it needs.
    #[error("{0} has too few bytes")]
    NoRoom(Thing),
    /// This `Thing` has a byte in common with the bootloader.
    #[error("{0} lies in the bootloader")]
    InBootloader(Thing),
    /// These two spans have a byte in common, and therefore a sector. The second `Thing` is the first one that overlaps an earlier one.
    #[error("{0} and {1} share a sector")]
    Shared(Thing, Thing),
    /// `plan` found no placement.
    #[error("the sectors are too few, or too unequal")]
    NoPlacement,
}
