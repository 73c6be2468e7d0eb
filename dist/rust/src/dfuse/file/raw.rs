// Of crates/dfu_formats/src/dfuse/raw.rt, whose contracts are taken away.

//! Converts a file without addresses to one element.

use crate::dfuse::file::element::Element;
use crate::dfuse::file::marks::begins_with_dfuse;
use crate::suffix::SuffixFault;
use core::fmt;
use thiserror::Error;

/// Fault of a file that can't become an element at an address: the first one in this order that applies.
#[derive(Clone, Copy, Debug, PartialEq, Eq, Error)]
pub enum RawFault {
    /// The file is longer than 16,777,216 bytes.
    TooLarge,
    /// The file has a signature, and bLength is less than 16 or more than the length of the file.
    BadLength,
    /// The file has a signature, bcdDFU isn't 011Ah, and dwCRC isn't the CRC register over the bytes before it.
    BadCrc,
    /// The file has a signature and bcdDFU 011Ah, or begins with the letters DfuSe.
    HasAddresses,
    /// The file has no bytes, or none before its suffix.
    Empty,
    /// The last byte would have an address beyond FFFFFFFFh.
    AddressPastTheEnd,
}

/// Text of each fault, in the order of the enum.
static TEXTS: [&str; 6] = [
    "the file has over 16777216 bytes",
    "the suffix's length is under 16 or over the file's",
    "the file's CRC differs from the one in its suffix",
    "the file is a DfuSe file, which has addresses of its own",
    "the file is empty",
    "the file ends behind the last address",
];

impl fmt::Display for RawFault {
    fn fmt(&self, f: &mut fmt::Formatter<'_>) -> fmt::Result {
        f.write_str(TEXTS[*self as usize])
    }
}

/// Returns the refusal of a file in which suffix finds `fault`, or None if the fault causes no refusal.
fn refusal(fault: SuffixFault) -> Option<RawFault> {
    match fault {
        SuffixFault::TooLarge => Some(RawFault::TooLarge),
        SuffixFault::BadLength => Some(RawFault::BadLength),
        SuffixFault::BadCrc => Some(RawFault::BadCrc),
        SuffixFault::DfuSe => Some(RawFault::HasAddresses),
        _ => None,
    }
}

/// Returns the bytes before the suffix, or all bytes of a file without a suffix, or the refusal of the file.
fn payload_of(bytes: &[u8]) -> Result<&[u8], RawFault> {
    match crate::suffix::read(bytes) {
        Ok(file) => Ok(file.payload()),
        Err(fault) => match refusal(fault) {
            Some(refused) => Err(refused),
            None => Ok(bytes),
        },
    }
}

/// Returns true if `bytes` begin with the letters DfuSe.
fn has_prefix(bytes: &[u8]) -> bool {
    bytes.len() >= 5 && begins_with_dfuse(bytes)
}

/// Returns `bytes` as an element at `address`, or the first fault.
fn placed_at(address: u32, bytes: &[u8]) -> Result<Element<'_>, RawFault> {
    if has_prefix(bytes) {
        return Err(RawFault::HasAddresses);
    }
    if bytes.len() == 0 {
        return Err(RawFault::Empty);
    }
    if address as u64 + bytes.len() as u64 > 0x1_0000_0000 {
        return Err(RawFault::AddressPastTheEnd);
    }
    Ok(Element { address, bytes })
}

/// Reads a file without addresses as an element at `address`. A suffix (USB DFU 1.1, appendix B) is removed. A file with a damaged suffix
/// is refused, and so is one that begins like a DfuSe file, because the suffix or the prefix would be written too.
///
/// # Errors
///
/// The first fault, in the order of [`RawFault`].
pub fn read_raw(bytes: &[u8], address: u32) -> Result<Element<'_>, RawFault> {
    match payload_of(bytes) {
        Ok(payload) => placed_at(address, payload),
        Err(fault) => Err(fault),
    }
}
