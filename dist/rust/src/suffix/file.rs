// Of crates/dfu_suffix/src/file.rt, whose contracts are taken away.

//! Sizes and limits of a file (USB DFU 1.1, appendix B), and the file that `read` returns.

use crate::wire::Ids;

/// Largest number of bytes in a file.
pub(crate) const MAX_FILE: usize = 16_777_216;

/// Largest number of reads for a file. Each read except the last returns at least one byte.
pub(crate) const MAX_READS: usize = MAX_FILE + 1;

/// Number of bytes that each read requests.
pub const READ_BYTES: usize = 16_384;

/// Smallest number of bytes in a suffix.
pub(crate) const MIN_SUFFIX: u32 = 16;

/// Largest number of bytes in a payload. With a suffix of 16 bytes, it makes the largest file.
pub(crate) const MAX_PAYLOAD: usize = 16_777_200;

/// bcdDFU of a DfuSe file.
pub(crate) const DFUSE: u16 = 0x011a;

/// A file of the grammar: its payload, as a slice of the bytes that were read, and the fields of its suffix. Only `read` and `read_small`
/// create one.
#[derive(Debug, PartialEq, Eq)]
pub struct File<'f> {
    pub(crate) payload: &'f [u8],
    pub(crate) ids: Ids,
    pub(crate) dfu: u16,
    pub(crate) suffix: u8,
}

impl<'f> File<'f> {
    /// Returns the payload, which is sent to a device.
    pub fn payload(&self) -> &'f [u8] {
        self.payload
    }

    /// Returns the identifiers of the device that the file is for.
    pub fn ids(&self) -> Ids {
        self.ids
    }

    /// Returns bcdDFU, the version of the file format. It isn't 011Ah.
    pub fn dfu(&self) -> u16 {
        self.dfu
    }

    /// Returns bLength, the number of bytes in the suffix, 16 to 255.
    pub fn suffix(&self) -> u8 {
        self.suffix
    }
}
