// Of crates/dfu_suffix/src/findings.rt, whose contracts are taken away.

//! Findings of a check, for an accepted or a refused file.

use crate::suffix::summary::u32_at;

/// Findings of `check_with` in a file of 16 to 16,777,216 bytes: its length, two fields of its suffix (USB DFU 1.1, appendix B), which may
/// be wrong, and the right value of dwCRC.
#[derive(Clone, Copy, Debug, PartialEq, Eq)]
pub struct Findings {
    /// Length of the file in bytes.
    pub count: u32,
    /// bLength, 0 to 255.
    pub suffix: u8,
    /// dwCRC, as the file contains it.
    pub crc: u32,
    /// CRC register over all bytes but the last four, which is the right value of dwCRC.
    pub register: u32,
}

impl Findings {
    /// Returns the findings before a check, which are all 0.
    pub fn new() -> Findings {
        Findings {
            count: 0,
            suffix: 0,
            crc: 0,
            register: 0,
        }
    }
}

/// Returns the findings for a file of `count` bytes, from its last 16 and from the register over all of it.
pub(crate) fn findings_of(tail: &[u8], count: u32, register: u32) -> Findings {
    let crc = u32_at(tail, 12);
    Findings {
        count,
        suffix: tail[11],
        crc,
        register: before_four(register, crc),
    }
}

// Returns the number whose CRC shift by one bit is `register`. The highest bit of `register` shows the bit that was shifted out.
fn unshifted(register: u32) -> u32 {
    if register < 0x8000_0000 {
        register * 2
    } else {
        (register ^ 0xedb8_8320) * 2 + 1
    }
}

// Returns the register before the last four bytes, from the register after them and from the number that they encode, the low byte first.
fn before_four(register: u32, last: u32) -> u32 {
    let mut number = register;
    for _turn in 0u8..32 {
        number = unshifted(number);
    }
    number ^ last
}
