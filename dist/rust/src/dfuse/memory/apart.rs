// Of crates/dfu_formats/src/memory/apart.rt, whose contracts are taken away.

//! Test for ranges that share no address.

use crate::dfuse::memory::pages::Pages;
use crate::dfuse::memory::ranges::end_of;

/// Returns true if `one` and `other` share no address.
fn is_apart(one: &Pages, other: &Pages) -> bool {
    end_of(one) <= other.start as u64 || end_of(other) <= one.start as u64
}

/// Returns true if `one` shares no address with any of `others`.
fn is_apart_from(one: &Pages, others: &[Pages]) -> bool {
    for other in others {
        if !is_apart(one, other) {
            return false;
        }
    }
    true
}

/// Returns true if no two of `ranges` share an address.
pub(crate) fn are_apart(ranges: &[Pages]) -> bool {
    let mut count = 0;
    for one in ranges {
        count += 1;
        let (_, others) = ranges.split_at(count);
        if !is_apart_from(one, others) {
            return false;
        }
    }
    true
}
