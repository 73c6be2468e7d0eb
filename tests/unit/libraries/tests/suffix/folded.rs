//! The register over many bytes, which are folded, at lengths around the ends of pieces and steps.

use super::{register, register_by_bits};
use fustrelan::suffix::Crc;

const MOST: usize = 20_000;

static LENGTHS: [usize; 20] = [
    0, 1, 4_095, 4_096, 4_097, 4_111, 4_112, 4_113, 6_063, 6_064, 6_065, 8_191, 8_192, 8_193,
    8_207, 12_287, 12_288, 12_289, 16_385, MOST,
];

fn register_long(bytes: &[u8]) -> u32 {
    let mut crc = Crc::new();
    crc.update_long(bytes);
    crc.value()
}

/// The long body, the fast one and the plain one agree, however the bytes are cut, also if two bodies take a part each.
#[test]
fn registers_of_many_bytes() {
    let mut bytes = [0u8; MOST];
    let mut next: u32 = 1;
    for place in bytes.iter_mut() {
        next = next.wrapping_mul(1_664_525).wrapping_add(1_013_904_223);
        *place = (next >> 24) as u8;
    }
    for end in &LENGTHS {
        let whole = &bytes[..(*end).min(MOST)];
        let (front, back) = whole.split_at(whole.len() / 3);
        let mut mixed = Crc::new();
        mixed.update(front);
        mixed.update_long(back);
        let value = register_by_bits(whole);
        assert_eq!(
            (register_long(whole), mixed.value(), register(whole)),
            (value, value, value),
            "over {end} bytes, whole and in two pieces"
        );
    }
}
