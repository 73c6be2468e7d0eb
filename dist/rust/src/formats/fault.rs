// Of crates/dfu_formats/src/images/fault.rt, whose contracts are taken away.

//! Faults of files from which no image can be read.

use core::fmt;
use thiserror::Error;

/// A fault of a file from which no image can be read. Lines are counted from 1, and blocks and segments from 0.
#[derive(Clone, Copy, Debug, PartialEq, Eq, Error)]
pub enum ImageFault {
    /// An allocation was refused.
    NoMemory,
    /// The line doesn't begin with `:` in Intel HEX, or with `S` and a digit in S-records.
    NoMark(usize),
    /// The text after the mark of the record isn't pairs of hexadecimal digits.
    BadDigit(usize),
    /// The length of the record doesn't fit its count or its type.
    BadLength(usize),
    /// The checksum doesn't match the record.
    BadChecksum(usize),
    /// The format has no record of this type.
    BadType(usize),
    /// The count of a record isn't the number of data records before it.
    BadCount(usize),
    /// The data ends beyond its segment, or beyond address FFFFFFFFh.
    PastSegment(usize),
    /// A line that isn't blank follows the end record.
    Trailing(usize),
    /// The file has no end record, and no count of S-records after its last data record.
    NoEnd,
    /// The file isn't a sequence of one or more blocks of 512 bytes.
    BadSize,
    /// The block lacks one of its three magic numbers.
    BadMagic(usize),
    /// The data size in the block is more than 476 bytes.
    BadBlock(usize),
    /// The number of the block isn't its index in the file, or its count isn't the number of all blocks.
    BadNumber(usize),
    /// The block belongs to a file container, and isn't meant for the flash.
    FileContainer(usize),
    /// The block is for another family of boards than the first one.
    OtherFamily(usize),
    /// The file doesn't have the header of a 32-bit little-endian ELF file.
    NotElf,
    /// The file doesn't contain all its program headers, or they don't have 32 bytes each.
    CutHeader,
    /// The file doesn't contain all bytes of a segment.
    CutSegment(usize),
    /// The data of the block or segment ends beyond address FFFFFFFFh.
    PastTheEnd(usize),
    /// With the data of this line, block or segment, the image has over 16,777,216 bytes.
    TooLarge(usize),
    /// With the data of this line, block or segment, the image has over 1,024 elements.
    TooManyElements(usize),
    /// Two records, blocks or segments have data for this address, which is the lowest such address.
    Overlaps(u32),
}

/// Row of Overlaps in the tables. The number of this fault is an address, which is printed in hexadecimal.
const OVERLAPS: usize = 22;

/// Text of each fault without its number, in the order of the enum.
static WORDS: [&str; 23] = [
    "an allocation was refused",
    "no record begins so",
    "not all is pairs of hexadecimal digits",
    "the record has a wrong length",
    "the checksum is wrong",
    "the record has an unknown type",
    "the count of records is wrong",
    "the data ends behind its segment, or behind the last address",
    "something stands behind the end record",
    "the end record is missing",
    "the file isn't blocks of 512 bytes",
    "no block begins and ends so",
    "it can't have so much data",
    "it has another number, or another count",
    "it is for a file, and not for flash",
    "it is for another family of boards than the first",
    "the file isn't an ELF file of 32 bits, little endian",
    "the program headers are cut off, or have another size",
    "it is cut off",
    "the data ends behind address FFFFFFFF",
    "the image has over 16,777,216 bytes",
    "the image has over 1,024 parts",
    "two records have a byte at address ",
];

/// Word before the number of each fault in its message, in the order of the enum. It is empty for a fault that has no such number.
#[rustfmt::skip]
static PLACES: [&str; 23] = [
    "", "line", "line", "line", "line", "line", "line", "line", "line", "", "", "block", "block", "block", "block", "block", "",
    "", "segment", "at", "at", "at", "",
];

impl ImageFault {
    /// Returns the row of the fault in the tables, 0 to 22, and its number or address, if it has one.
    fn row(self) -> (usize, Option<usize>) {
        match self {
            ImageFault::NoMemory => (0, None),
            ImageFault::NoMark(number) => (1, Some(number)),
            ImageFault::BadDigit(number) => (2, Some(number)),
            ImageFault::BadLength(number) => (3, Some(number)),
            ImageFault::BadChecksum(number) => (4, Some(number)),
            ImageFault::BadType(number) => (5, Some(number)),
            ImageFault::BadCount(number) => (6, Some(number)),
            ImageFault::PastSegment(number) => (7, Some(number)),
            ImageFault::Trailing(number) => (8, Some(number)),
            ImageFault::NoEnd => (9, None),
            ImageFault::BadSize => (10, None),
            ImageFault::BadMagic(number) => (11, Some(number)),
            ImageFault::BadBlock(number) => (12, Some(number)),
            ImageFault::BadNumber(number) => (13, Some(number)),
            ImageFault::FileContainer(number) => (14, Some(number)),
            ImageFault::OtherFamily(number) => (15, Some(number)),
            ImageFault::NotElf => (16, None),
            ImageFault::CutHeader => (17, None),
            ImageFault::CutSegment(number) => (18, Some(number)),
            ImageFault::PastTheEnd(number) => (19, Some(number)),
            ImageFault::TooLarge(number) => (20, Some(number)),
            ImageFault::TooManyElements(number) => (21, Some(number)),
            ImageFault::Overlaps(address) => (OVERLAPS, Some(address as usize)),
        }
    }
}

impl fmt::Display for ImageFault {
    fn fmt(&self, f: &mut fmt::Formatter<'_>) -> fmt::Result {
        let (row, number) = self.row();
        match number {
            Some(address) if row == OVERLAPS => write!(f, "{}{address:08x}", WORDS[row]),
            Some(number) => write!(f, "{} {number}: {}", PLACES[row], WORDS[row]),
            None => f.write_str(WORDS[row]),
        }
    }
}
