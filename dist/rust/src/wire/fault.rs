// Of crates/dfu_wire/src/fault.rt, whose contracts are taken away.

//! Reasons why bytes or numbers aren't a valid value of a wire format.

use core::fmt;
use thiserror::Error;

/// Reason why bytes or numbers aren't a valid value of a wire format. Each decoder documents the order of its checks.
#[derive(Clone, Copy, Debug, PartialEq, Eq, Error)]
pub enum WireFault {
    /// Too few bytes. A functional descriptor has none, or fewer than its first byte specifies (if that is 7 or 9). A status has under six.
    Short,
    /// Too many bytes. A functional descriptor has more than its first byte specifies (if that is 7 or 9). A status has over six.
    Long,
    /// The first byte of a functional descriptor, bLength, is neither 7 nor 9.
    WrongLength,
    /// The second byte of a functional descriptor, bDescriptorType, is not 21h.
    WrongType,
    /// A state byte is over 10, the highest number of a state.
    UnknownState,
    /// A code byte is over 15, the highest number of a status code.
    UnknownCode,
    /// A poll timeout is over 16,777,215 milliseconds, the largest number that fits in three bytes.
    PollTooLong,
}

/// Messages of the faults, in the order of `WireFault`.
static TEXTS: [&str; 7] = [
    "too few bytes",
    "too many bytes",
    "the length byte is wrong",
    "the type byte is wrong",
    "no such state",
    "no such status code",
    "the poll time does not fit 24 bits",
];

impl fmt::Display for WireFault {
    fn fmt(&self, f: &mut fmt::Formatter<'_>) -> fmt::Result {
        f.write_str(TEXTS[*self as usize])
    }
}

/// Names of the variants, in the order of `WireFault`.
#[rustfmt::skip]
static NAMES: [&str; 7] = [
    "Short", "Long", "WrongLength", "WrongType", "UnknownState", "UnknownCode", "PollTooLong",
];

impl WireFault {
    /// Returns the name of the fault's variant, such as `Short`.
    pub fn name(self) -> &'static str {
        NAMES[self as usize]
    }
}
