// Of crates/dfu_formats/src/dfuse/headings.rt, whose contracts are taken away.

//! Fields of a target before its elements.

use crate::dfuse::file::fault::FileFault;
use crate::dfuse::file::marks::is_target;
use crate::dfuse::file::numbers::number_at;

/// Fields of a target before its elements, the encoded elements, and the bytes after the target.
#[derive(Debug, PartialEq, Eq)]
pub(crate) struct Heading<'f> {
    pub setting: u8,
    pub named: u32,
    pub name: &'f [u8],
    pub count: u32,
    pub content: &'f [u8],
    pub rest: &'f [u8],
}

/// Splits the first target off `bytes`: 274 bytes of fields, and then its encoded elements. The fault is NoTarget or BadTargetSize.
pub(crate) fn take_heading(bytes: &[u8]) -> Result<Heading<'_>, FileFault> {
    if bytes.len() < 274 {
        return Err(FileFault::NoTarget);
    }
    if !is_target(bytes) {
        return Err(FileFault::NoTarget);
    }
    let size = number_at(266, bytes) as usize;
    let (_, behind) = bytes.split_at(274);
    if behind.len() < size {
        return Err(FileFault::BadTargetSize);
    }
    let (_, named) = bytes.split_at(11);
    let (name, _) = named.split_at(255);
    let (content, rest) = behind.split_at(size);
    Ok(Heading {
        setting: bytes[6],
        named: number_at(7, bytes),
        name,
        count: number_at(270, bytes),
        content,
        rest,
    })
}
