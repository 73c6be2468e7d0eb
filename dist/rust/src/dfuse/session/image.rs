// Of crates/dfuse_host/src/image.rt, whose contracts are taken away.

//! Bytes of an image and their addresses.

use crate::dfuse::file::Element;

/// Returns the address after the last byte of `element`.
pub(crate) fn end_of(element: &Element<'_>) -> u64 {
    element.address as u64 + element.bytes.len() as u64
}

/// Returns true if `element` has a byte at address `at`.
fn holds(at: u64, element: &Element<'_>) -> bool {
    element.address as u64 <= at && at < end_of(element)
}

/// Returns the first element of `image` that has a byte at address `at`, or None if there is none.
pub(crate) fn element_at<'f>(at: u64, image: &[Element<'f>]) -> Option<Element<'f>> {
    for element in image {
        if holds(at, element) {
            return Some(*element);
        }
    }
    None
}

/// Returns the first address from `at` on at which `image` has a byte, or None if there is none. The elements must ascend, and none may be
/// empty.
pub(crate) fn next_byte(at: u64, image: &[Element<'_>]) -> Option<u64> {
    for element in image {
        if at < end_of(element) {
            return Some(at.max(element.address as u64));
        }
    }
    None
}

/// Returns the address at which the first element of `image` begins; 0 if it has no element.
pub(crate) fn image_start(image: &[Element<'_>]) -> u64 {
    if image.len() == 0 {
        return 0;
    }
    image[0].address as u64
}

/// Returns the highest address at which an element of `image` ends; 0 if it has no element.
pub(crate) fn image_end(image: &[Element<'_>]) -> u64 {
    let mut end = 0;
    for element in image {
        end = end_of(element).max(end);
    }
    end
}
