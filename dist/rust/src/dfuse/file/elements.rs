// Of crates/dfu_formats/src/dfuse/elements.rt, whose contracts are taken away.

//! The elements of a target.

use crate::dfuse::file::element::Element;
use crate::dfuse::file::fault::FileFault;
use crate::dfuse::file::numbers::number_at;

/// An element and the bytes after it.
#[derive(Debug, PartialEq, Eq)]
struct ElementAndRest<'f> {
    element: Element<'f>,
    rest: &'f [u8],
}

/// Splits an element off the front of `bytes`, or returns the fault of this element.
fn take_element(bytes: &[u8]) -> Result<ElementAndRest<'_>, FileFault> {
    if bytes.len() < 8 {
        return Err(FileFault::ElementPastTheTarget);
    }
    let address = number_at(0, bytes);
    let size = number_at(4, bytes);
    let (_, behind) = bytes.split_at(8);
    if behind.len() < size as usize {
        return Err(FileFault::ElementPastTheTarget);
    }
    if size == 0 {
        return Err(FileFault::EmptyElement);
    }
    if address as u64 + size as u64 > 0x1_0000_0000 {
        return Err(FileFault::AddressPastTheEnd);
    }
    let (content, rest) = behind.split_at(size as usize);
    Ok(ElementAndRest {
        element: Element {
            address,
            bytes: content,
        },
        rest,
    })
}

/// Checks that `rest` is empty.
///
/// # Errors
///
/// `fault` if `rest` has a byte.
pub(crate) fn check_end(rest: &[u8], fault: FileFault) -> Result<(), FileFault> {
    if rest.is_empty() { Ok(()) } else { Err(fault) }
}

/// Checks that `bytes` are the encoding of `count` elements, and nothing more.
pub(crate) fn check_elements(count: u32, bytes: &[u8]) -> Result<(), FileFault> {
    let mut rest = bytes;
    for _ in 0..count {
        match take_element(rest) {
            Ok(split) => rest = split.rest,
            Err(fault) => return Err(fault),
        }
    }
    check_end(rest, FileFault::BadTargetSize)
}

/// Iterator over the elements of a target, in the order of the file.
#[derive(Debug, PartialEq, Eq)]
pub struct Elements<'f> {
    left: u32,
    rest: &'f [u8],
}

impl<'f> Elements<'f> {
    /// Returns an iterator over the next `left` elements of `rest`, which `check_elements` must have accepted.
    pub(crate) fn new(left: u32, rest: &'f [u8]) -> Elements<'f> {
        Elements { left, rest }
    }

    /// Returns the number of elements that are left.
    pub fn len(&self) -> u32 {
        self.left
    }

    /// Removes and returns the first element. Returns None if no element is left.
    pub fn next_element(&mut self) -> Option<Element<'f>> {
        if self.left == 0 {
            return None;
        }
        match take_element(self.rest) {
            Ok(split) => {
                self.left -= 1;
                self.rest = split.rest;
                Some(split.element)
            }
            Err(_) => None,
        }
    }
}
