//! UF2, in files of two blocks.

use super::told;
use fustrelan::formats::uf2;
use fustrelan::memory::Global;
use unit::Outcome;

/// The fields of a block: flags, address, size, number, count, and the family or the file's size.
type Fields = [u32; 6];

/// Adds a block, whose data is A0h, A1h and so on.
fn push_block(file: &mut Vec<u8>, fields: &Fields) {
    file.extend_from_slice(&0x0a32_4655_u32.to_le_bytes());
    file.extend_from_slice(&0x9e5d_5157_u32.to_le_bytes());
    for field in fields {
        file.extend_from_slice(&field.to_le_bytes());
    }
    for at in 0..476 {
        file.push((0xa0 + at % 16) as u8);
    }
    file.extend_from_slice(&0x0ab1_6f30_u32.to_le_bytes());
}

/// A file of two blocks.
fn file_of(first: &Fields, second: &Fields) -> Vec<u8> {
    let mut file = Vec::new();
    push_block(&mut file, first);
    push_block(&mut file, second);
    file
}

/// Two blocks, and what is read of the file.
#[rustfmt::skip]
static ROWS: [(Fields, Fields, &str); 17] = [
    ([0, 0x1000, 2, 0, 2, 0], [0, 0x1002, 1, 1, 2, 0], " 00001000:A0A1A0"),
    ([0, 0x1000, 2, 0, 2, 0], [0, 0x1003, 1, 1, 2, 0], " 00001000:A0A1 00001003:A0"),
    ([0, 0x1003, 1, 0, 2, 0], [0, 0x1000, 2, 1, 2, 0], " 00001000:A0A1 00001003:A0"),
    ([0, 0xffff_ffff, 1, 0, 2, 0], [0, 0, 1, 1, 2, 0], " 00000000:A0 FFFFFFFF:A0"),
    // Both of one family, or of no family. Without its flag the field is a file's size.
    ([0x2000, 0, 1, 0, 2, 7], [0x2000, 1, 1, 1, 2, 7], " 00000000:A0A0"),
    ([0, 0, 1, 0, 2, 7], [0, 1, 1, 1, 2, 8], " 00000000:A0A0"),
    ([0x2000, 0, 1, 0, 2, 7], [0x2000, 1, 1, 1, 2, 8], "block 1: it is for another family of boards than the first"),
    ([0x2000, 0, 1, 0, 2, 7], [0, 1, 1, 1, 2, 7], "block 1: it is for another family of boards than the first"),
    // A block that is not for the main flash; a checksum and tags, which are no part of the image; no data.
    ([0xc000, 0, 1, 0, 2, 0], [0x3001, 0, 1, 1, 2, 9], " 00000000:A0"),
    ([0, 0, 1, 0, 2, 0], [0, 0, 0, 1, 2, 0], " 00000000:A0"),
    ([0, 0, 1, 0, 2, 0], [0x1000, 1, 1, 1, 2, 0], "block 1: it is for a file, and not for flash"),
    ([0, 0, 477, 0, 2, 0], [0, 1, 1, 1, 2, 0], "block 0: it can't have so much data"),
    ([0, 0, 1, 1, 2, 0], [0, 1, 1, 1, 2, 0], "block 0: it has another number, or another count"),
    ([0, 0, 1, 0, 2, 0], [0, 1, 1, 1, 3, 0], "block 1: it has another number, or another count"),
    ([0, 0xffff_ffff, 2, 0, 2, 0], [0, 1, 1, 1, 2, 0], "at 0: the data ends behind address FFFFFFFF"),
    ([0, 0, 2, 0, 2, 0], [0, 1, 1, 1, 2, 0], "two records have a byte at address 00000001"),
    ([1, 0, 477, 0, 2, 0], [0, 1, 1, 1, 2, 0], "block 0: it can't have so much data"),
];

#[test]
fn rows() -> Outcome {
    for (first, second, says) in &ROWS {
        let file = file_of(first, second);
        let said = told(uf2::read(Global, &file));
        assert_eq!(said, *says);
    }
    Ok(())
}

/// This is read of a file with another byte at this place.
fn changed(at: usize, says: &str) -> Outcome {
    let mut file = file_of(&[0, 0, 1, 0, 2, 0], &[0, 1, 1, 1, 2, 0]);
    if at < file.len() {
        file[at] ^= 1;
    }
    let said = told(uf2::read(Global, &file));
    assert_eq!(said, says, "{at}");
    Ok(())
}

#[test]
fn marks() -> Outcome {
    for at in [0, 7, 508, 511] {
        changed(at, "block 0: no block begins and ends so")?;
    }
    changed(516, "block 1: no block begins and ends so")?;
    changed(2000, " 00000000:A0A0")
}

#[test]
fn sizes() -> Outcome {
    let file = file_of(&[0, 0, 1, 0, 2, 0], &[0, 1, 1, 1, 2, 0]);
    for size in [0, 1, 511, 513] {
        let front = &file[..size];
        let said = told(uf2::read(Global, front));
        assert_eq!(said, "the file isn't blocks of 512 bytes", "{size}");
    }
    Ok(())
}
