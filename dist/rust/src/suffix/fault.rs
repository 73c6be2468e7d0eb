// Of crates/dfu_suffix/src/fault.rt, whose contracts are taken away.

//! Faults of files with a suffix.

use core::fmt;
use thiserror::Error;

/// Fault of reading, checking or writing a file. `read` and `check` test for TooLarge, TooShort, NoSignature, BadLength, DfuSe and BadCrc,
/// in this order, and return the first. `add` tests for TooLarge and then for AlreadySuffixed.
#[derive(Clone, Copy, Debug, PartialEq, Eq, Error)]
pub enum SuffixFault {
    /// The file has fewer than 16 bytes.
    TooShort,
    /// Bytes 8 to 10 of the file's last 16 aren't 55h 46h 44h ('U', 'F', 'D').
    NoSignature,
    /// bLength is less than 16, or more than the length of the file.
    BadLength,
    /// bcdDFU is 011Ah, so the payload is in the DfuSe format.
    DfuSe,
    /// dwCRC isn't the CRC register over the bytes before it.
    BadCrc,
    /// The bytes already have a suffix, because `read` would return Ok or DfuSe for them.
    AlreadySuffixed,
    /// The file has over 16,777,216 bytes, or would have them with a suffix of 16 bytes.
    TooLarge,
    /// An allocation of `add` was refused.
    NoMemory,
    /// The reader failed.
    Read,
    /// The writer failed, or accepted none of the remaining bytes.
    Write,
}

/// Text of each fault, in the order of the enum.
static TEXTS: [&str; 10] = [
    "the file has under 16 bytes, too few for a suffix",
    "the file has no DFU signature",
    "the suffix's length is under 16 or over the file's",
    "the file is a DfuSe file",
    "the file's CRC differs from the one in its suffix",
    "the file has a suffix already",
    "the file with its suffix has over 16777216 bytes",
    "out of memory",
    "the file can't be read",
    "the file can't be written",
];

impl fmt::Display for SuffixFault {
    fn fmt(&self, f: &mut fmt::Formatter<'_>) -> fmt::Result {
        f.write_str(TEXTS[*self as usize])
    }
}

/// Name of each fault, in the order of the enum.
#[rustfmt::skip]
static NAMES: [&str; 10] = [
    "TooShort", "NoSignature", "BadLength", "DfuSe", "BadCrc", "AlreadySuffixed", "TooLarge", "NoMemory", "Read",
    "Write",
];

impl SuffixFault {
    /// Returns the name of the fault's variant, such as `TooShort`.
    pub fn name(self) -> &'static str {
        NAMES[self as usize]
    }
}
