// Of crates/dfu_formats/src/memory/map.rt, whose contracts are taken away.

//! A memory map.

use crate::dfuse::memory::apart::are_apart;
use crate::dfuse::memory::fault::MapFault;
use crate::dfuse::memory::limits::MOST_RANGES;
use crate::dfuse::memory::lookups;
use crate::dfuse::memory::name::take_name;
use crate::dfuse::memory::pages::{Access, Page, Pages};
use crate::dfuse::memory::place::take_address;
use crate::dfuse::memory::ranges::take_ranges;
use arrayvec::ArrayVec;

/// A memory map: the name of a memory, and its ranges of pages, which share no address.
#[derive(Debug, PartialEq, Eq)]
pub struct Map<'t> {
    name: &'t [u8],
    ranges: ArrayVec<Pages, MOST_RANGES>,
}

/// Reads a map from `text`.
///
/// # Errors
///
/// The first fault of `text`.
fn read_map(text: &[u8]) -> Result<Map<'_>, MapFault> {
    let named = match take_name(text) {
        Ok(named) => named,
        Err(fault) => return Err(fault),
    };
    let place = match take_address(named.rest) {
        Ok(place) => place,
        Err(fault) => return Err(fault),
    };
    let ranges = match take_ranges(place.value, place.rest) {
        Ok(ranges) => ranges,
        Err(fault) => return Err(fault),
    };
    if !are_apart(&ranges) {
        return Err(MapFault::Overlaps);
    }
    Ok(Map {
        name: named.name,
        ranges,
    })
}

impl<'t> Map<'t> {
    /// Reads the map in `text`, the string of an alternate setting.
    ///
    /// # Errors
    ///
    /// The first fault of the string, read from its front, or Overlaps if two ranges share an address.
    pub fn read(text: &'t [u8]) -> Result<Map<'t>, MapFault> {
        read_map(text)
    }

    /// Returns the name of the memory.
    pub fn name(&self) -> &'t [u8] {
        self.name
    }

    /// Returns the ranges, at most 32, in the order of the string.
    pub fn ranges(&self) -> &[Pages] {
        &self.ranges
    }

    /// Returns the range that contains `address`, or None if no range contains it.
    pub fn range_at(&self, address: u32) -> Option<Pages> {
        lookups::range_at(address as u64, &self.ranges)
    }

    /// Returns the page that contains `address`, or None if no range contains it.
    pub fn page_at(&self, address: u32) -> Option<Page> {
        lookups::page_at(address as u64, &self.ranges)
    }

    /// Returns true if each address from `start` to before `end` is in a range that grants `wanted`.
    pub fn grants(&self, wanted: Access, start: u64, end: u64) -> bool {
        lookups::all_granted(wanted, start, end, &self.ranges)
    }
}
