//! What `check_with` finds in right and wrong files, however a reader cuts them.

use super::files::{EMPTY, FOUR_ONES, complement, turned};
use super::readers::in_pieces;
use super::register_by_bits;
use fustrelan::suffix::{Findings, check_with};

/// `check_with` finds the same in these bytes in pieces of 1 to 20.
fn finds(bytes: &[u8], known: Findings) {
    for step in 1..=20usize {
        let mut findings = Findings::new();
        let _ = check_with(in_pieces(bytes, step), &mut findings);
        assert_eq!(findings, known, "{step} at a time of {bytes:?}");
    }
}

fn findings(count: u32, suffix: u8, crc: u32, register: u32) -> Findings {
    Findings {
        count,
        suffix,
        crc,
        register,
    }
}

#[test]
fn finds_known_registers() {
    finds(&FOUR_ONES, findings(20, 16, 0x0c51_c871, 0x0c51_c871));
    finds(&EMPTY, findings(16, 16, 0x887b_f1e1, 0x887b_f1e1));
    finds(&complement(), findings(20, 16, 0xf3ae_378e, 0x0c51_c871));
}

#[test]
fn finds_registers_of_damaged_files() {
    for at in 0..20usize {
        for bit in 0..8u32 {
            let changed = turned(at, bit);
            let (front, last) = changed.split_at(16);
            let crc = u32::from_le_bytes([last[0], last[1], last[2], last[3]]);
            finds(
                &changed,
                findings(20, changed[15], crc, register_by_bits(front)),
            );
        }
    }
}
