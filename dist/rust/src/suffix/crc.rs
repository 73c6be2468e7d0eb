// Of crates/dfu_suffix/src/crc.rt, whose contracts are taken away.

//! The CRC register of USB DFU 1.1, appendix B, eight bytes at a time.

use crate::suffix::table::TABLES;
use crate::suffix::{folding, small};
use byteorder::{ByteOrder, LittleEndian};

/// The CRC register over the bytes so far: reflected CRC-32 with the polynomial EDB88320h and the start value FFFFFFFFh, without a final
/// complement. Its complement is the usual CRC-32.
#[derive(Clone, Copy, Debug, PartialEq, Eq)]
pub struct Crc {
    register: u32,
}

impl Crc {
    /// Returns the register over no bytes, FFFFFFFFh.
    pub fn new() -> Self {
        Crc {
            register: 0xffff_ffff,
        }
    }

    /// Adds bytes to the register, after those that were added before. A program that calls `update` links 8,192 bytes of tables, which
    /// `update_small` doesn't need.
    pub fn update(&mut self, bytes: &[u8]) {
        *self = Crc {
            register: after_bytes(self.register, bytes),
        };
    }

    /// Adds bytes like `update`, in about half as many instructions for 65,536 bytes. 4,096 bytes or more are folded first, which needs
    /// 6,064 bytes of stack.
    pub fn update_long(&mut self, bytes: &[u8]) {
        *self = Crc {
            register: folding::after_bytes(self.register, bytes),
        };
    }

    /// Adds bytes like `update`, with a table of 64 bytes, in over four times as many instructions. It is meant for devices without room
    /// for the large tables, which are only left out of a program that never calls `update` or `update_long`.
    pub fn update_small(&mut self, bytes: &[u8]) {
        *self = Crc {
            register: small::after_bytes(self.register, bytes),
        };
    }

    /// Returns the register over the bytes so far. For all bytes of a file before its dwCRC, this is the dwCRC.
    pub fn value(&self) -> u32 {
        self.register
    }
}

// Returns the table at index `place`. Only this function names all tables, because proofs about code that names them are slow.
#[inline(always)]
fn table(place: usize) -> &'static [u32; 256] {
    &TABLES[place]
}

// Returns the table's entry for the low byte of a number.
#[inline(always)]
fn entry(table: &[u32; 256], number: u32) -> u32 {
    table[(number & 0xff) as usize]
}

// Returns the register after one more byte.
#[inline(always)]
fn after_byte(register: u32, byte: u8) -> u32 {
    (register >> 8) ^ entry(table(7), register ^ u32::from(byte))
}

// Returns the table's entry for a byte.
#[inline(always)]
fn byte_entry(table: &[u32; 256], byte: u8) -> u32 {
    table[usize::from(byte)]
}

// Returns the CRC shift of a four-byte number by 32 bits.
#[inline(always)]
fn after_32_zeros(bytes: &[u8]) -> u32 {
    byte_entry(table(4), bytes[0])
        ^ byte_entry(table(5), bytes[1])
        ^ byte_entry(table(6), bytes[2])
        ^ byte_entry(table(7), bytes[3])
}

// Returns the CRC shift of a number by 64 bits.
#[inline(always)]
fn after_64_zeros(number: u32) -> u32 {
    entry(table(0), number)
        ^ entry(table(1), number >> 8)
        ^ entry(table(2), number >> 16)
        ^ entry(table(3), number >> 24)
}

// Returns the register after eight more bytes. The first four are combined with the register as one number. The other four are loaded one
// by one, because this takes fewer instructions than splitting a word into bytes.
#[inline(always)]
fn after_eight(register: u32, bytes: &[u8]) -> u32 {
    let (first, second) = bytes.split_at(4);
    after_32_zeros(second) ^ after_64_zeros(register ^ LittleEndian::read_u32(first))
}

// Returns the register after more bytes, one at a time.
#[inline(always)]
fn after_each(start: u32, bytes: &[u8]) -> u32 {
    let mut register = start;
    for byte in bytes {
        register = after_byte(register, *byte);
    }
    register
}

// Returns the register after sixteen more bytes.
#[inline(always)]
fn after_sixteen(register: u32, bytes: &[u8]) -> u32 {
    let (first, second) = bytes.split_at(8);
    after_eight(after_eight(register, first), second)
}

// Returns the register after more bytes. The first eight are processed at once, if there are as many, and the others one by one.
fn after_few(register: u32, bytes: &[u8]) -> u32 {
    match bytes.split_first_chunk::<8>() {
        Some((eight, more)) => after_each(after_eight(register, eight), more),
        None => after_each(register, bytes),
    }
}

/// Returns the register `start` after `bytes`, sixteen at a time, because this halves the number of loop iterations.
pub(crate) fn after_bytes(start: u32, bytes: &[u8]) -> u32 {
    let mut register = start;
    let mut rest = bytes;
    while let Some((front, more)) = rest.split_first_chunk::<16>() {
        register = after_sixteen(register, front);
        rest = more;
    }
    after_few(register, rest)
}
