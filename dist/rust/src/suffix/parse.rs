// Of crates/dfu_suffix/src/parse.rt, whose contracts are taken away.

//! A file of the grammar, read from its end.

use crate::suffix::crc::Crc;
use crate::suffix::fault::SuffixFault;
use crate::suffix::file::{File, MAX_FILE, MIN_SUFFIX};
use crate::suffix::summary::parse_tail;

// Returns the last 16 bytes, or all bytes if there are fewer.
fn tail(bytes: &[u8]) -> &[u8] {
    let (_, tail) = bytes.split_at(bytes.len().saturating_sub(MIN_SUFFIX as usize));
    tail
}

// Returns the register over all bytes, with the large tables or with the small one. Both give the same result.
#[inline(always)]
fn register_over(bytes: &[u8], by_small_table: bool) -> u32 {
    let mut crc = Crc::new();
    if by_small_table {
        crc.update_small(bytes);
    } else {
        crc.update_long(bytes);
    }
    crc.value()
}

// Returns the bytes before the suffix, which has `suffix` bytes.
fn payload_of(bytes: &[u8], suffix: usize) -> &[u8] {
    let (payload, _) = bytes.split_at(bytes.len() - suffix);
    payload
}

/// Reads the fields from the end of the bytes, or returns the first fault. The body is inlined into each reader, so that the small reader
/// doesn't link the large tables.
#[inline(always)]
fn parse(bytes: &[u8], by_small_table: bool) -> Result<File<'_>, SuffixFault> {
    if bytes.len() > MAX_FILE {
        return Err(SuffixFault::TooLarge);
    }
    match parse_tail(tail(bytes), bytes.len() as u32) {
        Ok(_) if register_over(bytes, by_small_table) != 0 => Err(SuffixFault::BadCrc),
        Ok(summary) => Ok(File {
            payload: payload_of(bytes, summary.suffix as usize),
            ids: summary.ids,
            dfu: summary.dfu,
            suffix: summary.suffix,
        }),
        Err(fault) => Err(fault),
    }
}

// Reads a whole file, with the contract of `read` and `read_small`.
#[inline(always)]
fn read_by(bytes: &[u8], by_small_table: bool) -> Result<File<'_>, SuffixFault> {
    parse(bytes, by_small_table)
}

/// Reads a whole file (USB DFU 1.1, appendix B). No memory is allocated, because the payload is a slice of `bytes`.
///
/// # Errors
///
/// The first of these that applies: TooLarge over 16,777,216 bytes, TooShort under 16, NoSignature if the last 16 bytes lack 'UFD',
/// BadLength if bLength is less than 16 or more than the length of the file, DfuSe if bcdDFU is 011Ah, BadCrc if dwCRC isn't the CRC
/// register over the bytes before it.
pub fn read(bytes: &[u8]) -> Result<File<'_>, SuffixFault> {
    read_by(bytes, false)
}

/// Reads a whole file like `read`, with a table of 64 bytes, in about nine times as many instructions. It is meant for programs without
/// room for the 8,192 bytes of the large tables, which are only left out of a program that never calls `read`, `check`, `add`,
/// `Crc::update` or `Crc::update_long`.
///
/// # Errors
///
/// Those of `read`, in the same order.
pub fn read_small(bytes: &[u8]) -> Result<File<'_>, SuffixFault> {
    read_by(bytes, true)
}
