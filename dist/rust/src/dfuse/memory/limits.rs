// Of crates/dfu_formats/src/memory/limits.rt, whose contracts are taken away.

//! Limits of a memory map.

/// Number of 32-bit addresses.
pub(crate) const ADDRESSES: u64 = 0x1_0000_0000;

/// Largest number of ranges of a map.
pub(crate) const MOST_RANGES: usize = 32;
