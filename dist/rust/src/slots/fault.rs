// Of crates/dfu_slots/src/fault.rt, whose contracts are taken away.

//! Faults that the calls of the store return.
use core::fmt;
use thiserror::Error;

/// Fault of `format`. The faults are checked in this order.
#[derive(Clone, Copy, Debug, PartialEq, Eq, Error)]
pub enum FormatFault {
    /// The medium's length is not 2 * (2 * G + C), or its sector size is neither 0 nor a multiple of 256 up to 262,144. C is from 1 to
    /// 16,777,216 and a multiple of the unit and of the sector; G is the largest of 16, the unit's size and the sector's. Nothing was
    /// written.
    WrongSize,
    /// The image is longer than the data of a slot. Nothing was written.
    TooLarge,
    /// A write to the medium failed, or reading it back returned other bytes. The medium may have an active image or none.
    Failed,
}

impl fmt::Display for FormatFault {
    fn fmt(&self, f: &mut fmt::Formatter<'_>) -> fmt::Result {
        f.write_str(match self {
            FormatFault::WrongSize => "the medium has no length that two slots can have",
            FormatFault::TooLarge => "the image is longer than a slot's data",
            FormatFault::Failed => "a write to the medium failed",
        })
    }
}

/// Fault of `open`. The medium is unchanged. The faults are checked in this order.
///
/// A slot counts if its gate is open and, if its header is of version 2, that header is well formed: its zero bytes are 0, its length is at
/// most the capacity C, and its register is the CRC register of that many data bytes of the slot.
#[derive(Clone, Copy, Debug, PartialEq, Eq, Error)]
pub enum OpenFault {
    /// The medium's length is not 2 * (2 * G + C), or its sector size is neither 0 nor a multiple of 256 up to 262,144. C is from 1 to
    /// 16,777,216 and a multiple of the unit and of the sector; G is the largest of 16, the unit's size and the sector's.
    WrongSize,
    /// Neither slot counts.
    NoImage,
    /// Both slots count, and neither slot's generation is the other's plus 1 modulo 256.
    TwoImages,
    /// The active slot's header has a version other than 1 and 2; or it has version 1, and one of its zero bytes is not 0 or its length is
    /// over C.
    BadHeader,
}

impl fmt::Display for OpenFault {
    fn fmt(&self, f: &mut fmt::Formatter<'_>) -> fmt::Result {
        f.write_str(match self {
            OpenFault::WrongSize => "the medium has no length that two slots can have",
            OpenFault::NoImage => "no slot of the medium has an image",
            OpenFault::TwoImages =>
                "two slots of the medium have an image, and neither follows the other",
            OpenFault::BadHeader => "the header of the active slot is not well formed",
        })
    }
}

/// Fault of one write or erase of the store.
#[derive(Clone, Copy, Debug, PartialEq, Eq)]
pub enum WriteFault {
    /// The medium reported that the write failed.
    Failed,
    /// The medium reported success, but reading the range back returned other bytes.
    NotVerified,
}

/// Fault that `begin`, `put` or `commit` returns.
#[derive(Clone, Copy, Debug, PartialEq, Eq, Error)]
pub enum PutFault {
    /// The bytes end beyond the capacity. Nothing was written. Only `put` returns this fault, because `commit` activates only bytes that
    /// were put already.
    TooLarge,
    /// A write to the medium failed. The old image is still active, except after `commit`, where the whole new image may be active instead.
    /// The bytes put since `begin` are discarded, and `put_end` is 0.
    Failed,
    /// The medium reported that a write succeeded, but reading it back returned other bytes. The medium's count of failures rose or is at
    /// its maximum. Everything else is as after `Failed`.
    NotVerified,
    /// The spare's gate is open, so its slot may hold the previous image. Call `begin` first. Nothing was written. `put` and `commit` check
    /// this before `TooLarge`; `begin` never returns it.
    NotBegun,
}

impl fmt::Display for PutFault {
    fn fmt(&self, f: &mut fmt::Formatter<'_>) -> fmt::Result {
        f.write_str(match self {
            PutFault::TooLarge => "the image is longer than a slot's data",
            PutFault::Failed => "a write to the medium failed",
            PutFault::NotVerified => "a write to the medium is not there",
            PutFault::NotBegun => "the spare slot was not begun",
        })
    }
}
