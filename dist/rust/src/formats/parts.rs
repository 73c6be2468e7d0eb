// Of crates/dfu_formats/src/images/parts.rt, whose contracts are taken away.

//! Formats whose files consist of parts of equal size.

use crate::formats::element::Element;
use crate::formats::fault::ImageFault;
use crate::formats::gathering::Gathering;
use crate::memory::{Global, Vec};

/// A file that consists of parts of equal size. The value contains the facts about the whole file that are needed to read a part.
pub(crate) trait ByPart {
    fn part_read(
        &self,
        alloc: Global,
        index: usize,
        gathering: Gathering,
        part: &[u8],
    ) -> Result<Gathering, ImageFault>;
}

/// Reads the first `total` parts, each of `size` bytes. Returns the elements gathered from them, or the first fault.
fn parts_read<F: ByPart>(
    alloc: Global,
    file: &F,
    size: usize,
    total: usize,
    parts: &[u8],
) -> Result<Gathering, ImageFault> {
    let mut gathering = Gathering::new(alloc);
    let mut rest = parts;
    let mut index: usize = 0;
    while index < total {
        let (part, behind) = rest.split_at(size);
        gathering = match file.part_read(alloc, index, gathering, part) {
            Ok(next) => next,
            Err(fault) => return Err(fault),
        };
        rest = behind;
        index += 1;
    }
    Ok(gathering)
}

/// Reads the elements from the first `total` parts, each of `size` bytes.
pub(crate) fn elements_by_part<F: ByPart>(
    alloc: Global,
    file: &F,
    size: usize,
    total: usize,
    parts: &[u8],
) -> Result<Vec<Element>, ImageFault> {
    match parts_read(alloc, file, size, total, parts) {
        Ok(gathering) => gathering.finish(),
        Err(fault) => Err(fault),
    }
}
