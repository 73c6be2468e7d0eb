// Of crates/dfu_suffix/src/summary.rt, whose contracts are taken away.

//! The summary of a file that `check` returns, from the last bytes of the file (USB DFU 1.1, appendix B).

use crate::suffix::fault::SuffixFault;
use crate::suffix::file::{DFUSE, MIN_SUFFIX};
use byteorder::{ByteOrder, LittleEndian};
use crate::wire::Ids;

/// Summary of a file: the fields of its suffix, and the length of its payload.
#[derive(Clone, Copy, Debug, PartialEq, Eq)]
pub struct Summary {
    /// Length of the payload in bytes, at most 16,777,200.
    pub payload: u32,
    /// bLength, the number of bytes in the suffix, 16 to 255.
    pub suffix: u8,
    /// Identifiers of the device that the file is for.
    pub ids: Ids,
    /// bcdDFU, which isn't 011Ah.
    pub dfu: u16,
    /// dwCRC, the CRC register over all bytes before it.
    pub crc: u32,
}

// Returns true if bytes 8 to 10 of the last 16 are the letters UFD.
fn is_signed(tail: &[u8]) -> bool {
    tail[8] == b'U' && tail[9] == b'F' && tail[10] == b'D'
}

// Returns the number in the two bytes from index `at` on, the low byte first.
fn u16_at(bytes: &[u8], at: usize) -> u16 {
    let (_, field) = bytes.split_at(at);
    LittleEndian::read_u16(field)
}

/// Returns the number in the four bytes from index `at` on, the low byte first.
pub(crate) fn u32_at(bytes: &[u8], at: usize) -> u32 {
    let (_, field) = bytes.split_at(at);
    LittleEndian::read_u32(field)
}

// Returns the identifiers in the last 16 bytes.
fn ids_of(tail: &[u8]) -> Ids {
    Ids {
        device: u16_at(tail, 0),
        product: u16_at(tail, 2),
        vendor: u16_at(tail, 4),
    }
}

/// Returns the summary of a file of `count` bytes, from its last 16, or the first fault in them. TooLarge and BadCrc are not tested.
pub(crate) fn parse_tail(tail: &[u8], count: u32) -> Result<Summary, SuffixFault> {
    if count < MIN_SUFFIX {
        return Err(SuffixFault::TooShort);
    }
    if !is_signed(tail) {
        return Err(SuffixFault::NoSignature);
    }
    let suffix = u32::from(tail[11]);
    if suffix < MIN_SUFFIX || count < suffix {
        return Err(SuffixFault::BadLength);
    }
    let dfu = u16_at(tail, 6);
    if dfu == DFUSE {
        return Err(SuffixFault::DfuSe);
    }
    Ok(Summary {
        payload: count - suffix,
        suffix: tail[11],
        ids: ids_of(tail),
        dfu,
        crc: u32_at(tail, 12),
    })
}

/// Returns the summary of a file of `count` bytes, from `tail`, its last 16 bytes, and `register`, the CRC register over all of it. The
/// register is 0 exactly if dwCRC is right.
///
/// # Errors
///
/// The first fault of the file. TooLarge is not tested.
pub(crate) fn check_register(tail: &[u8], count: u32, register: u32) -> Result<Summary, SuffixFault> {
    match parse_tail(tail, count) {
        Ok(_) if register != 0 => Err(SuffixFault::BadCrc),
        answer => answer,
    }
}
