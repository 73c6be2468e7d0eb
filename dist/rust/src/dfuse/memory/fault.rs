// Of crates/dfu_formats/src/memory/fault.rt, whose contracts are taken away.

//! Faults of a string that isn't a memory map.

use core::fmt;
use thiserror::Error;

/// Fault of a string that isn't a memory map. The string is read from the front, and the first fault is returned. Overlaps is checked after
/// all ranges are read.
#[derive(Clone, Copy, Debug, PartialEq, Eq, Error)]
pub enum MapFault {
    /// The string doesn't begin with `@`, or has no `/` after the name.
    NoMap,
    /// A `/` isn't followed by one to eight hexadecimal digits, with or without `0x`, and another `/`.
    BadAddress,
    /// A range has no count from 1 to 99999 in at most five digits, followed by `*`.
    BadCount,
    /// A range has no size from 1 to 99999 in at most five digits.
    BadSize,
    /// A size and its unit aren't followed by a letter from `a` to `g`.
    BadType,
    /// A range ends beyond address FFFFFFFFh.
    PastTheEnd,
    /// The map has more than 32 ranges.
    TooManyRanges,
    /// A range is followed neither by the end of the string, nor by `,` or `/`.
    Trailing,
    /// Two ranges share an address.
    Overlaps,
}

/// Text of each fault, in the order of the enum.
static TEXTS: [&str; 9] = [
    "the string has no memory map",
    "the memory map has a bad address",
    "the memory map has a bad count of pages",
    "the memory map has a bad page size",
    "the memory map has a bad letter for what may be done with pages",
    "the memory map has pages behind address FFFFFFFF",
    "the memory map has over 32 ranges",
    "the memory map has bytes behind its last range",
    "two ranges of the memory map overlap",
];

impl fmt::Display for MapFault {
    fn fmt(&self, f: &mut fmt::Formatter<'_>) -> fmt::Result {
        f.write_str(TEXTS[*self as usize])
    }
}
