// Of crates/dfu_formats/src/images/uf2.rt, whose contracts are taken away.

//! UF2 files, which consist of blocks of 512 bytes.

use crate::formats::element::Element;
use crate::formats::fault::ImageFault;
use crate::formats::gathering::Gathering;
use crate::formats::numbers::le32;
use crate::formats::parts::{ByPart, elements_by_part};
use crate::memory::{Global, Vec};

/// Returns true if `block` has the three magic numbers of UF2.
fn has_block_marks(block: &[u8]) -> bool {
    le32(block, 0) == 0x0a32_4655
        && le32(block, 4) == 0x9e5d_5157
        && le32(block, 508) == 0x0ab1_6f30
}

/// Returns true if `block` has the flag `flag`, a number with a single bit set.
fn has_flag(block: &[u8], flag: u32) -> bool {
    le32(block, 8) / flag % 2 == 1
}

/// Returns the family of boards that `block` is for, or 0 if the block contains no family.
fn family_of(block: &[u8]) -> u32 {
    if has_flag(block, 0x2000) {
        le32(block, 28)
    } else {
        0
    }
}

/// Adds the data of `block` to the elements, or skips the block if it isn't for the main flash. A block for the main flash has a fault if
/// it belongs to a file container, is for another family, or has data beyond address FFFFFFFFh.
fn add_block(
    alloc: Global,
    index: usize,
    family: u32,
    gathering: Gathering,
    block: &[u8],
) -> Result<Gathering, ImageFault> {
    if has_flag(block, 1) {
        return Ok(gathering);
    }
    if has_flag(block, 0x1000) {
        return Err(ImageFault::FileContainer(index));
    }
    if family_of(block) != family {
        return Err(ImageFault::OtherFamily(index));
    }
    let address = le32(block, 12) as u64;
    let count = le32(block, 16) as usize;
    if address + count as u64 > 0x1_0000_0000 {
        return Err(ImageFault::PastTheEnd(index));
    }
    let (_, behind) = block.split_at(32);
    let (content, _) = behind.split_at(count);
    gathering.add(alloc, index, address, content)
}

/// A UF2 file, read block by block: the number of its blocks, and the family of its first block.
#[derive(Debug, PartialEq, Eq)]
struct Blocks {
    total: usize,
    family: u32,
}

impl ByPart for Blocks {
    fn part_read(
        &self,
        alloc: Global,
        index: usize,
        gathering: Gathering,
        block: &[u8],
    ) -> Result<Gathering, ImageFault> {
        if !has_block_marks(block) {
            return Err(ImageFault::BadMagic(index));
        }
        if le32(block, 16) > 476 {
            return Err(ImageFault::BadBlock(index));
        }
        if le32(block, 20) as usize != index || le32(block, 24) as usize != self.total {
            return Err(ImageFault::BadNumber(index));
        }
        add_block(alloc, index, self.family, gathering, block)
    }
}

/// Reads the elements of UF2 file `file`.
pub fn read(alloc: Global, file: &[u8]) -> Result<Vec<Element>, ImageFault> {
    if file.len() == 0 || file.len() % 512 != 0 {
        return Err(ImageFault::BadSize);
    }
    let (first, _) = file.split_at(512);
    let blocks = Blocks {
        total: file.len() / 512,
        family: family_of(first),
    };
    elements_by_part(alloc, &blocks, 512, blocks.total, file)
}
