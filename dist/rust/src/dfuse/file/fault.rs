// Of crates/dfu_formats/src/dfuse/fault.rt, whose contracts are taken away.

//! Faults of bytes that aren't a DfuSe file.

use core::fmt;
use thiserror::Error;

/// Fault of bytes that aren't a DfuSe file. The faults up to BadCrc are tested first, in this order, on the size and the suffix of the
/// file. The others are tested on the bytes before the suffix, which are read from the front, target by target.
#[derive(Clone, Copy, Debug, PartialEq, Eq, Error)]
pub enum FileFault {
    /// The file is longer than 16,777,216 bytes.
    TooLarge,
    /// The file is shorter than 16 bytes.
    TooShort,
    /// Bytes 8 to 10 of the file's last 16 aren't 55h 46h 44h ('U', 'F', 'D').
    NoSignature,
    /// bLength is less than 16, or more than the length of the file.
    BadLength,
    /// bcdDFU isn't 011Ah, so the file is not a DfuSe file but one of USB DFU.
    NotDfuSe,
    /// dwCRC isn't the CRC register over the bytes before it.
    BadCrc,
    /// There are fewer than 11 bytes before the suffix, or they don't begin with the letters DfuSe.
    NoPrefix,
    /// The version in the prefix isn't 1.
    BadVersion,
    /// The size in the prefix isn't the length of the file, with or without the suffix.
    BadImageSize,
    /// The number of targets is 0.
    NoTargets,
    /// Fewer than 274 bytes are left for a target, or they don't begin with the letters Target.
    NoTarget,
    /// The size of a target is larger than the number of bytes after its header, or bytes remain after its last element.
    BadTargetSize,
    /// An element is missing, or the target ends before the number of bytes in the element's size field.
    ElementPastTheTarget,
    /// The size of an element is 0.
    EmptyElement,
    /// An element ends beyond address FFFFFFFFh.
    AddressPastTheEnd,
    /// Bytes follow the last target.
    Trailing,
}

/// Text of each fault, in the order of the enum.
static TEXTS: [&str; 16] = [
    "the file has over 16777216 bytes",
    "the file has under 16 bytes, too few for a suffix",
    "the file has no DFU signature",
    "the suffix's length is under 16 or over the file's",
    "the file is not a DfuSe file",
    "the file's CRC differs from the one in its suffix",
    "the file does not begin as a DfuSe file",
    "the file is of another version of DfuSe",
    "the file has another size than it says",
    "the file has no targets",
    "the file has fewer targets than it says",
    "a target has another size than it says",
    "an element ends behind its target",
    "an element has no bytes",
    "an element ends behind the last address",
    "the file has more bytes behind its last target",
];

impl fmt::Display for FileFault {
    fn fmt(&self, f: &mut fmt::Formatter<'_>) -> fmt::Result {
        f.write_str(TEXTS[*self as usize])
    }
}
