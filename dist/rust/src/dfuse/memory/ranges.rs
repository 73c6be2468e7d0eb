// Of crates/dfu_formats/src/memory/ranges.rt, whose contracts are taken away.

//! The ranges of a map.

use crate::dfuse::memory::fault::MapFault;
use crate::dfuse::memory::group::take_group;
use crate::dfuse::memory::limits::MOST_RANGES;
use crate::dfuse::memory::pages::Pages;
use crate::dfuse::memory::place::take_next;
use arrayvec::ArrayVec;

/// Returns the address after the last byte of range `pages`, at most 2^32.
pub(crate) fn end_of(pages: &Pages) -> u64 {
    pages.start as u64 + pages.count as u64 * pages.size
}

/// Reads at most 32 ranges, up to the end of the text. The first begins at `start`. Returns them, or the first fault.
pub(crate) fn take_ranges(start: u64, text: &[u8]) -> Result<ArrayVec<Pages, MOST_RANGES>, MapFault> {
    let mut ranges = ArrayVec::new();
    let mut at = start;
    let mut rest = text;
    loop {
        let group = match take_group(at, rest) {
            Ok(group) => group,
            Err(fault) => return Err(fault),
        };
        if ranges.is_full() {
            return Err(MapFault::TooManyRanges);
        }
        ranges.push(group.pages);
        match take_next(end_of(&group.pages), group.rest) {
            Ok(None) => return Ok(ranges),
            Ok(Some(next)) => {
                at = next.value;
                rest = next.rest;
            }
            Err(fault) => return Err(fault),
        }
    }
}
