// Of crates/dfu_formats/src/images/elf.rt, whose contracts are taken away.

//! 32-bit little-endian ELF files: the bytes that their segments load.

use crate::formats::element::Element;
use crate::formats::fault::ImageFault;
use crate::formats::gathering::Gathering;
use crate::formats::numbers::{le16, le32};
use crate::formats::parts::{ByPart, elements_by_part};
use crate::memory::{Global, Vec};

/// Returns true if `file` has the header of a 32-bit little-endian ELF file.
fn is_elf(file: &[u8]) -> bool {
    file.len() >= 52 && le32(file, 0) == 0x464c_457f && file[4] == 1 && file[5] == 1 && file[6] == 1
}

/// An ELF file, read segment by segment.
#[derive(Debug, PartialEq, Eq)]
struct Segments<'t> {
    file: &'t [u8],
}

impl ByPart for Segments<'_> {
    fn part_read(
        &self,
        alloc: Global,
        index: usize,
        gathering: Gathering,
        header: &[u8],
    ) -> Result<Gathering, ImageFault> {
        let count = le32(header, 16) as usize;
        if le32(header, 0) != 1 || count == 0 {
            return Ok(gathering);
        }
        let from = le32(header, 4) as usize;
        let address = le32(header, 12) as u64;
        // The sum needs 64 bits, because two header fields can together exceed a 32-bit usize.
        if from as u64 + count as u64 > self.file.len() as u64 {
            return Err(ImageFault::CutSegment(index));
        }
        if address + count as u64 > 0x1_0000_0000 {
            return Err(ImageFault::PastTheEnd(index));
        }
        let (_, behind) = self.file.split_at(from);
        let (content, _) = behind.split_at(count);
        gathering.add(alloc, index, address, content)
    }
}

/// Reads the elements of ELF file `file`.
pub fn read(alloc: Global, file: &[u8]) -> Result<Vec<Element>, ImageFault> {
    if !is_elf(file) {
        return Err(ImageFault::NotElf);
    }
    let total = le16(file, 44) as usize;
    if total == 0 {
        return Gathering::new(alloc).finish();
    }
    let from = le32(file, 28) as usize;
    if le16(file, 42) != 32 || from as u64 + 32 * total as u64 > file.len() as u64 {
        return Err(ImageFault::CutHeader);
    }
    let (_, headers) = file.split_at(from);
    elements_by_part(alloc, &Segments { file }, 32, total, headers)
}
