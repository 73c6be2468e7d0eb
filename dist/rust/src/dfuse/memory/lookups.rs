// Of crates/dfu_formats/src/memory/lookups.rt, whose contracts are taken away.

//! Lookups of an address in ranges.

use crate::dfuse::memory::pages::{Access, Page, Pages};
use crate::dfuse::memory::ranges::end_of;

/// Returns true if range `pages` contains `address`.
fn has(address: u64, pages: &Pages) -> bool {
    pages.start as u64 <= address && address < end_of(pages)
}

/// Returns the range that contains `address`, or None if none contains it.
pub(crate) fn range_at(address: u64, ranges: &[Pages]) -> Option<Pages> {
    for pages in ranges {
        if has(address, pages) {
            return Some(*pages);
        }
    }
    None
}

/// Returns the page of range `pages` that contains `address`. The range must contain the address.
fn page_in(address: u64, pages: &Pages) -> Page {
    let start = pages.start as u64;
    let number = (address - start) / pages.size;
    Page {
        start: (start + number * pages.size) as u32,
        size: pages.size,
        access: pages.access,
    }
}

/// Returns the page that contains `address`, or None if no range contains it.
pub(crate) fn page_at(address: u64, ranges: &[Pages]) -> Option<Page> {
    match range_at(address, ranges) {
        Some(pages) => Some(page_in(address, &pages)),
        None => None,
    }
}

/// Returns true if each address from `start` to before `end` is in a range that grants `wanted`.
pub(crate) fn all_granted(wanted: Access, start: u64, end: u64, ranges: &[Pages]) -> bool {
    let mut at = start;
    while at < end {
        match range_at(at, ranges) {
            Some(pages) if pages.access.grants(wanted) => at = end_of(&pages),
            _ => return false,
        }
    }
    true
}
