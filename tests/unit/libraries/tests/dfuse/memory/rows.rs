//! Strings that are maps.

use super::pages;
use fustrelan::dfuse::memory::Map;
use unit::Outcome;

/// A string, the name that it has, and its ranges: where each begins, how many pages it has, of how many bytes, and its access by letters.
type Row = (
    &'static str,
    &'static str,
    &'static [(u32, u32, u64, &'static str)],
);

#[rustfmt::skip]
static MAPS: [Row; 19] = [
    // The flash of an F4, a page size with a space as its unit, ranges at addresses of their own, and a range that follows another.
    ("@Internal Flash  /0x08000000/04*016Kg,01*064Kg,07*128Kg", "Internal Flash",
        &[(0x0800_0000, 4, 16_384, "rew"), (0x0801_0000, 1, 65_536, "rew"), (0x0802_0000, 7, 131_072, "rew")]),
    ("@Option Bytes  /0x1FFFC000/01*016 e", "Option Bytes", &[(0x1fff_c000, 1, 16, "rw")]),
    ("@Device Feature/0xFFFF0000/01*004 e", "Device Feature", &[(0xffff_0000, 1, 4, "rw")]),
    ("@Option Bytes   /0x1FFF7800/01*040 e/0x1FFFF800/01*040 e", "Option Bytes",
        &[(0x1fff_7800, 1, 40, "rw"), (0x1fff_f800, 1, 40, "rw")]),
    ("@B /0x08000000/8*001Ka,056*001Kg", "B", &[(0x0800_0000, 8, 1024, "r"), (0x0800_2000, 56, 1024, "rew")]),
    // Ranges needn't ascend.
    ("@F/0x400/1*1Kg/0x0/1*1Ka", "F", &[(0x400, 1, 1024, "rew"), (0, 1, 1024, "r")]),
    // Each letter, and each unit.
    ("@X/0/1*1a,1*1b,1*1c,1*1d,1*1e,1*1f,1*1g", "X",
        &[(0, 1, 1, "r"), (1, 1, 1, "e"), (2, 1, 1, "re"), (3, 1, 1, "w"), (4, 1, 1, "rw"), (5, 1, 1, "ew"), (6, 1, 1, "rew")]),
    ("@X/0/2*3a", "X", &[(0, 2, 3, "r")]),
    ("@X/0/2*3Ba", "X", &[(0, 2, 3, "r")]),
    ("@X/0/2*3 a", "X", &[(0, 2, 3, "r")]),
    ("@X/0/2*3Ka", "X", &[(0, 2, 3072, "r")]),
    ("@X/0/2*3Ma", "X", &[(0, 2, 3_145_728, "r")]),
    // Addresses of either case, and without 0x.
    ("@X/0XabcdEF9/1*1a", "X", &[(0x0abc_def9, 1, 1, "r")]),
    ("@X/8000000/1*1a", "X", &[(0x0800_0000, 1, 1, "r")]),
    // Up to the last address; one page of all addresses, whose size doesn't fit 32 bits.
    ("@F/0xFFFFFC00/1*1Kg", "F", &[(0xffff_fc00, 1, 1024, "rew")]),
    ("@F/0/1*4096Mg", "F", &[(0, 1, 4_294_967_296, "rew")]),
    // Names.
    ("@/0/1*1a", "", &[(0, 1, 1, "r")]),
    ("@   /0/1*1a", "", &[(0, 1, 1, "r")]),
    ("@ @ x  /0/1*1a", " @ x", &[(0, 1, 1, "r")]),
];

#[test]
fn each_map() -> Outcome {
    for (text, name, ranges) in &MAPS {
        let map = Map::read(text.as_bytes())?;
        assert_eq!(map.name(), name.as_bytes(), "{text}");
        assert_eq!(map.ranges().len(), ranges.len(), "{text}");
        for (found, (start, count, size, access)) in map.ranges().iter().zip(*ranges) {
            assert_eq!(*found, pages(*start, *count, *size, access), "{text}");
        }
    }
    Ok(())
}

#[test]
fn thirty_two_ranges() -> Outcome {
    let text = format!("@F/0/1*1g{}", ",1*1g".repeat(31));
    let map = Map::read(text.as_bytes())?;
    assert_eq!(map.ranges().len(), 32);
    Ok(())
}
