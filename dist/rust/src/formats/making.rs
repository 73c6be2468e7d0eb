// Of crates/dfu_formats/src/images/making.rt, whose contracts are taken away.

//! The image of a file of any format, as one piece.

use crate::formats::element::Element;
use crate::formats::fault::ImageFault;
use crate::formats::format::Format;
use crate::formats::laying::{LayFault, lay, lowest};
use crate::formats::{elf, ihex, srec, uf2};
use crate::memory::{Global, Vec};
use core::fmt;
use thiserror::Error;

/// The image of a file as one piece, from its lowest address to its highest one.
#[derive(Debug, PartialEq, Eq)]
pub struct Image {
    /// The address of the first byte.
    pub address: u32,
    /// The bytes of the image, 1 to 16,777,216.
    pub bytes: Vec<u8>,
}

/// A fault of a file from which no image can be made.
#[derive(Clone, Copy, Debug, PartialEq, Eq, Error)]
pub enum ImageFileFault {
    /// The elements of the file can't be read.
    Unread(ImageFault),
    /// The file has no data, and so no address.
    NoData,
    /// The elements of the file can't be joined to one piece.
    Unlaid(LayFault),
}

impl fmt::Display for ImageFileFault {
    fn fmt(&self, f: &mut fmt::Formatter<'_>) -> fmt::Result {
        match self {
            ImageFileFault::Unread(fault) => fmt::Display::fmt(fault, f),
            ImageFileFault::NoData => f.write_str("it has no bytes for an image"),
            ImageFileFault::Unlaid(fault) => fmt::Display::fmt(fault, f),
        }
    }
}

/// Reads the elements of `file`, which is in `format`.
fn elements_in(alloc: Global, format: Format, file: &[u8]) -> Result<Vec<Element>, ImageFault> {
    match format {
        Format::IntelHex => ihex::read(alloc, file),
        Format::SRecord => srec::read(alloc, file),
        Format::Uf2 => uf2::read(alloc, file),
        Format::Elf => elf::read(alloc, file),
    }
}

/// Returns the image of `file`, which is in `format`. Gaps are filled with the byte `fill`, if it is given.
///
/// # Errors
///
/// Unread, with the first fault of the file; NoData if the file has no data; Unlaid, with the reason, if its elements can't be joined to
/// one piece.
pub fn image_of(
    alloc: Global,
    format: Format,
    fill: Option<u8>,
    file: &[u8],
) -> Result<Image, ImageFileFault> {
    let elements = match elements_in(alloc, format, file) {
        Ok(elements) => elements,
        Err(fault) => return Err(ImageFileFault::Unread(fault)),
    };
    if elements.is_empty() {
        return Err(ImageFileFault::NoData);
    }
    let address = lowest(&elements);
    match lay(alloc, &elements, fill) {
        Ok(bytes) => Ok(Image { address, bytes }),
        Err(fault) => Err(ImageFileFault::Unlaid(fault)),
    }
}
