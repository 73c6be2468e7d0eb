// Of crates/dfu_formats/src/images/srec_line.rt, whose contracts are taken away.

//! One S-record: its type, its address and its data.

use crate::formats::digits::{bytes_at, sum_of};
use crate::formats::fault::ImageFault;
use crate::formats::limits::MAX_RECORD;
use arrayvec::ArrayVec;

/// The type of a record, and its bytes.
#[derive(Debug, PartialEq, Eq)]
pub(crate) struct TypedRecord {
    kind: u8,
    bytes: ArrayVec<u8, MAX_RECORD>,
}

/// Returns the type and the bytes of the record in `line`, which has number `at`.
pub(crate) fn spelled(at: usize, line: &[u8]) -> Result<TypedRecord, ImageFault> {
    match line {
        [b'S', kind, digits @ ..] if *kind >= b'0' && *kind <= b'9' => match bytes_at(at, digits) {
            Ok(bytes) => Ok(TypedRecord {
                kind: *kind - b'0',
                bytes,
            }),
            Err(fault) => Err(fault),
        },
        _ => Err(ImageFault::NoMark(at)),
    }
}

/// Returns the number of address bytes in a record of type `kind`.
fn width(kind: u8) -> usize {
    match kind {
        3 | 7 => 4,
        2 | 6 | 8 => 3,
        _ => 2,
    }
}

/// Returns the number in these bytes, at most four, the high byte first.
fn number(bytes: &[u8]) -> u64 {
    let mut value: u64 = 0;
    for byte in bytes {
        value = 256 * value + *byte as u64;
    }
    value
}

/// A record: its type, its address, and its data.
#[derive(Debug, PartialEq, Eq)]
pub(crate) struct Record<'t> {
    pub(crate) kind: u8,
    pub(crate) address: u64,
    pub(crate) content: &'t [u8],
}

/// Splits `typed`, the type and bytes of the record on line `at`, into its fields, or returns the fault of its length or checksum.
pub(crate) fn split_record(at: usize, typed: &TypedRecord) -> Result<Record<'_>, ImageFault> {
    let bytes = typed.bytes.as_slice();
    let width = width(typed.kind);
    if bytes.len() == 0 || bytes.len() != bytes[0] as usize + 1 || bytes.len() < width + 2 {
        return Err(ImageFault::BadLength(at));
    }
    if sum_of(bytes) % 256 != 255 {
        return Err(ImageFault::BadChecksum(at));
    }
    let (_, behind) = bytes.split_at(1);
    let (address, _) = behind.split_at(width);
    let (_, behind) = bytes.split_at(width + 1);
    let (content, _) = behind.split_at(bytes.len() - (width + 2));
    Ok(Record {
        kind: typed.kind,
        address: number(address),
        content,
    })
}
