//! Values from outside: known registers and files, and a plain loop over bits.

mod added;
mod checked;
mod files;
mod folded;
mod found;
mod gathered;
mod readers;
pub mod texts;
mod writers;

use files::{DFUSE, DIGITS, EMPTY, FOUR_ONES, LONG_SUFFIX, NO_IDS};
use fustrelan::suffix::Crc;
use unit::are_displayed;
use unit::refusing::Refusing;

#[global_allocator]
static ALLOCATOR: Refusing = Refusing;

fn register(bytes: &[u8]) -> u32 {
    let mut crc = Crc::new();
    crc.update(bytes);
    crc.value()
}

fn register_small(bytes: &[u8]) -> u32 {
    let mut crc = Crc::new();
    crc.update_small(bytes);
    crc.value()
}

/// The register bit by bit, as in appendix B.
fn register_by_bits(bytes: &[u8]) -> u32 {
    let mut register: u32 = 0xffff_ffff;
    for byte in bytes {
        let mut rest = *byte;
        for _ in 0..8u32 {
            let differs = (register & 1) != u32::from(rest & 1);
            register >>= 1;
            rest >>= 1;
            if differs {
                register ^= 0xedb8_8320;
            }
        }
    }
    register
}

/// Bytes, the register over them, and their usual CRC-32, which is its complement.
static KNOWN: [(&[u8], u32, u32); 10] = [
    (b"", 0xffff_ffff, 0x0000_0000),
    (&[0xff], 0x00ff_ffff, 0xff00_0000),
    (&[0xff; 4], 0x0000_0000, 0xffff_ffff),
    (b"123456789", 0x340b_c6d9, 0xcbf4_3926),
    (&FOUR_ONES, 0x0000_0000, 0xffff_ffff),
    (&NO_IDS, 0x0000_0000, 0xffff_ffff),
    (&EMPTY, 0x0000_0000, 0xffff_ffff),
    (&LONG_SUFFIX, 0x0000_0000, 0xffff_ffff),
    (&DFUSE, 0x0000_0000, 0xffff_ffff),
    (&DIGITS, 0x0000_0000, 0xffff_ffff),
];

#[test]
fn registers_of_known_bytes() {
    for (bytes, value, usual) in &KNOWN {
        let over = register(bytes);
        assert_eq!(
            (over, !over, register_small(bytes), register_by_bits(bytes)),
            (*value, *usual, *value, *value),
            "over {bytes:?}"
        );
    }
}

/// The fast body, the small one and the plain one agree at each length around steps of eight and
/// sixteen bytes, however the bytes are cut, also if both take a part.
#[test]
fn register_in_pieces() {
    let mut bytes = [0u8; 67];
    let mut next: u8 = 1;
    for place in bytes.iter_mut() {
        *place = next;
        next = next.wrapping_mul(29).wrapping_add(7);
    }
    for end in 0..=67usize {
        let whole = &bytes[..end];
        let (front, back) = whole.split_at(end / 3);
        let mut crc = Crc::new();
        crc.update(front);
        crc.update(back);
        let mut mixed = Crc::new();
        mixed.update_small(front);
        mixed.update(back);
        let value = register_by_bits(whole);
        assert_eq!(
            (
                register(whole),
                register_small(whole),
                crc.value(),
                mixed.value()
            ),
            (value, value, value, value),
            "over {end} bytes, whole and in two pieces"
        );
    }
}

#[test]
fn suffix_faults_say_what_is_wrong() {
    are_displayed(&texts::TEXTS);
}
