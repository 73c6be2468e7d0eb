// Of crates/dfu_formats/src/images/laying.rt, whose contracts are taken away.

//! Joins the elements of an image into one piece, which begins at their lowest address.

use crate::formats::element::Element;
use crate::formats::limits::MAX_IMAGE;
use crate::memory::{Global, Vec};
use core::fmt;
use thiserror::Error;

/// A fault of elements that can't be joined to one piece.
#[derive(Clone, Copy, Debug, PartialEq, Eq, Error)]
pub enum LayFault {
    /// An allocation was refused.
    NoMemory,
    /// No element contains the addresses from the first value up to before the second one, and no fill byte is given.
    Gap(u64, u32),
    /// With the gaps filled, the image has over 16,777,216 bytes.
    TooLarge,
}

impl fmt::Display for LayFault {
    fn fmt(&self, f: &mut fmt::Formatter<'_>) -> fmt::Result {
        match self {
            LayFault::Gap(from, to) => write!(
                f,
                "nothing is at {from:08x} to before {to:08x}, and no filling is given"
            ),
            LayFault::NoMemory => f.write_str("an allocation was refused"),
            LayFault::TooLarge => f.write_str(
                "from the lowest to the highest address there are over 16,777,216 bytes",
            ),
        }
    }
}

/// Appends an element to bytes that end at address `end`, after the fill bytes between them. Returns the fault if there is one.
fn with_part(
    mut bytes: Vec<u8>,
    fill: Option<u8>,
    end: u64,
    element: &Element,
) -> Result<Vec<u8>, LayFault> {
    let gap = (element.address() as u64 - end) as usize;
    if fill.is_none() && gap != 0 {
        return Err(LayFault::Gap(end, element.address()));
    }
    let count = bytes.len();
    if gap > MAX_IMAGE - count || element.bytes().len() > MAX_IMAGE - count - gap {
        return Err(LayFault::TooLarge);
    }
    let Ok(()) = bytes.resize(count + gap, fill.unwrap_or(0)) else {
        return Err(LayFault::NoMemory);
    };
    match bytes.extend_from_slice(element.bytes()) {
        Ok(()) => Ok(bytes),
        Err(_) => Err(LayFault::NoMemory),
    }
}

/// Returns the lowest address of `elements`, which are sorted by address, or 0 if there are none.
pub fn lowest(elements: &[Element]) -> u32 {
    match elements.first() {
        Some(element) => element.address(),
        None => 0,
    }
}

/// Returns the bytes of `elements` from the lowest address on. Gaps are filled with the byte `fill`, if it is given.
///
/// # Errors
///
/// The first fault from the front: Gap if `fill` is None, or TooLarge. NoMemory if an allocation was refused.
///
/// # What the caller must keep to
///
/// - The elements come by their addresses, and none begins before the one before it ends.
pub fn lay(alloc: Global, elements: &[Element], fill: Option<u8>) -> Result<Vec<u8>, LayFault> {
    let mut bytes = Vec::new(alloc);
    let mut end = lowest(elements) as u64;
    for element in elements {
        bytes = match with_part(bytes, fill, end, element) {
            Ok(next) => next,
            Err(fault) => return Err(fault),
        };
        end = element.end();
    }
    Ok(bytes)
}
