// Of crates/dfu_suffix/src/small.rt, whose contracts are taken away.

//! The CRC register of USB DFU 1.1, appendix B, four bits at a time, for programs without room for the large tables.

/// The CRC shifts of the numbers below 16 by four bits. The proof computes all entries bit by bit from the definition
/// (crates/dfu_suffix/proofs/SmallTable.antt).
static AFTER_4: [u32; 16] = [
    0x0000_0000,
    0x1db7_1064,
    0x3b6e_20c8,
    0x26d9_30ac,
    0x76dc_4190,
    0x6b6b_51f4,
    0x4db2_6158,
    0x5005_713c,
    0xedb8_8320,
    0xf00f_9344,
    0xd6d6_a3e8,
    0xcb61_b38c,
    0x9b64_c2b0,
    0x86d3_d2d4,
    0xa00a_e278,
    0xbdbd_f21c,
];

// Returns the CRC shift of a number by four bits.
#[inline(always)]
fn after_4_zeros(number: u32) -> u32 {
    (number >> 4) ^ AFTER_4[(number & 0xf) as usize]
}

// Returns the register after one more byte.
#[inline(always)]
fn after_byte(register: u32, byte: u8) -> u32 {
    after_4_zeros(after_4_zeros(register ^ u32::from(byte)))
}

/// Returns the register `start` after `bytes`, one byte at a time.
pub(crate) fn after_bytes(start: u32, bytes: &[u8]) -> u32 {
    let mut register = start;
    for byte in bytes {
        register = after_byte(register, *byte);
    }
    register
}
