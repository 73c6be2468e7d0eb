//! ELF, in files with two program headers and four bytes after them.

use super::told;
use fustrelan::formats::elf;
use fustrelan::memory::Global;
use unit::Outcome;

/// The fields of a program header that matter: type, offset in the file, physical address, and size in the file.
type Fields = [u32; 4];

/// Adds a program header.
fn push_header(file: &mut Vec<u8>, fields: &Fields) {
    let [kind, from, address, size] = fields;
    let fields: [u32; 8] = [*kind, *from, 0x2000_0000, *address, *size, 0x100, 7, 4];
    for field in &fields {
        file.extend_from_slice(&field.to_le_bytes());
    }
}

/// A file with these two program headers, and A0h to A3h at 116 to 119.
fn file_of(first: &Fields, second: &Fields) -> Vec<u8> {
    let mut file = Vec::new();
    file.extend_from_slice(b"\x7fELF\x01\x01\x01\0\0\0\0\0\0\0\0\0");
    // An executable file for ARM, version 1. Its entry point is 1, and its program headers begin at 52.
    let fields: [u32; 9] = [0x0028_0002, 1, 1, 52, 0, 0, 0x0020_0034, 0x0028_0002, 0];
    for field in &fields {
        file.extend_from_slice(&field.to_le_bytes());
    }
    push_header(&mut file, first);
    push_header(&mut file, second);
    file.extend_from_slice(&[0xa0, 0xa1, 0xa2, 0xa3]);
    file
}

/// Two program headers, and what is read of the file.
#[rustfmt::skip]
static ROWS: [(Fields, Fields, &str); 11] = [
    ([1, 116, 0x0800_0000, 2], [1, 118, 0x0800_0002, 2], " 08000000:A0A1A2A3"),
    ([1, 116, 0x0800_0000, 2], [1, 116, 0x0800_0003, 1], " 08000000:A0A1 08000003:A0"),
    ([1, 118, 0x0800_0010, 2], [1, 116, 0x0800_0000, 2], " 08000000:A0A1 08000010:A2A3"),
    // Only segments that are loaded and have bytes.
    ([6, 52, 0, 64], [1, 116, 0x0800_0000, 4], " 08000000:A0A1A2A3"),
    ([1, 116, 0x0800_0000, 1], [1, 120, 0x2000_0000, 0], " 08000000:A0"),
    ([1, 116, 0x0800_0000, 1], [1, 0x20000, 0x2000_0000, 0], " 08000000:A0"),
    ([1, 119, 0xffff_ffff, 1], [0, 0, 0, 0], " FFFFFFFF:A3"),
    ([1, 116, 0, 1], [1, 117, 0x0800_0000, 4], "segment 1: it is cut off"),
    ([1, 0xffff_ffff, 0, 0xffff_ffff], [0, 0, 0, 0], "segment 0: it is cut off"),
    ([1, 116, 0xffff_fffe, 3], [0, 0, 0, 0], "at 0: the data ends behind address FFFFFFFF"),
    ([1, 116, 0x0800_0000, 2], [1, 116, 0x0800_0001, 2], "two records have a byte at address 08000001"),
];

#[test]
fn rows() -> Outcome {
    for (first, second, says) in &ROWS {
        let file = file_of(first, second);
        let said = told(elf::read(Global, &file));
        assert_eq!(said, *says);
    }
    Ok(())
}

/// This is read of a file with this byte at this place.
fn changed(at: usize, byte: u8, says: &str) -> Outcome {
    let mut file = file_of(&[1, 116, 0, 4], &[0, 0, 0, 0]);
    if at < file.len() {
        file[at] = byte;
    }
    let said = told(elf::read(Global, &file));
    assert_eq!(said, says, "{at}");
    Ok(())
}

#[test]
fn headers() -> Outcome {
    // Another mark, 64 bits, big endian, another version.
    for (at, byte) in [(0, 0x7e), (3, 0x47), (4, 2), (5, 2), (6, 2)] {
        changed(
            at,
            byte,
            "the file isn't an ELF file of 32 bits, little endian",
        )?;
    }
    // Program headers of 56 bytes, one too many, and at offsets where there can't be any.
    for (at, byte) in [(42, 56), (44, 3), (28, 57), (31, 255)] {
        changed(
            at,
            byte,
            "the program headers are cut off, or have another size",
        )?;
    }
    changed(44, 0, "")?;
    changed(44, 1, " 00000000:A0A1A2A3")
}

#[test]
fn no_header() -> Outcome {
    let file = file_of(&[0, 0, 0, 0], &[0, 0, 0, 0]);
    for size in [0, 4, 51] {
        let front = &file[..size];
        let said = told(elf::read(Global, front));
        assert_eq!(
            said, "the file isn't an ELF file of 32 bits, little endian",
            "{size}"
        );
    }
    Ok(())
}
