//! What maps say of addresses.

use fustrelan::dfuse::memory::{Access, Map, MapFault};
use unit::{Outcome, are_displayed};

/// The memory of an F4, with the option bytes of others after it.
static F4: &str = "@Internal Flash  /0x08000000/04*016Kg,01*064Kg,07*128Kg/0x1FFFC000/01*016 e";

const ERASES: Access = Access {
    is_readable: false,
    is_erasable: true,
    is_writable: true,
};

const READS: Access = Access {
    is_readable: true,
    is_erasable: false,
    is_writable: false,
};

/// The page of an address begins and ends there, or there is none.
fn page(address: u32, wanted: Option<(u32, u64)>) -> Outcome {
    let found = Map::read(F4.as_bytes())?
        .page_at(address)
        .map(|page| (page.start, page.size));
    assert_eq!(found, wanted, "{address:x}");
    Ok(())
}

#[test]
fn pages_of_addresses() -> Outcome {
    page(0x07ff_ffff, None)?;
    page(0x0800_0000, Some((0x0800_0000, 16_384)))?;
    page(0x0800_3fff, Some((0x0800_0000, 16_384)))?;
    page(0x0800_4000, Some((0x0800_4000, 16_384)))?;
    page(0x0801_ffff, Some((0x0801_0000, 65_536)))?;
    page(0x080f_ffff, Some((0x080e_0000, 131_072)))?;
    page(0x0810_0000, None)?;
    page(0x1fff_c00f, Some((0x1fff_c000, 16)))
}

/// Whether a part of the memory grants what is wanted.
fn grants(wanted: Access, start: u64, end: u64, answer: bool) -> Outcome {
    let map = Map::read(F4.as_bytes())?;
    assert_eq!(map.grants(wanted, start, end), answer, "{start:x} {end:x}");
    Ok(())
}

#[test]
fn parts_that_are_granted() -> Outcome {
    grants(ERASES, 0x0800_0000, 0x0810_0000, true)?;
    grants(ERASES, 0x0800_fffe, 0x0801_0001, true)?;
    grants(ERASES, 0x07ff_ffff, 0x0800_0001, false)?;
    grants(ERASES, 0x0800_0000, 0x0810_0001, false)?;
    grants(ERASES, 0x1fff_c000, 0x1fff_c010, false)?;
    grants(READS, 0x1fff_c000, 0x1fff_c010, true)?;
    grants(READS, 0x0800_0000, 0x2_0000_0000, false)?;
    grants(ERASES, 0x0900_0000, 0x0900_0000, true)
}

/// What each fault is printed as.
static TEXTS: [(MapFault, &str); 9] = [
    (MapFault::NoMap, "the string has no memory map"),
    (MapFault::BadAddress, "the memory map has a bad address"),
    (
        MapFault::BadCount,
        "the memory map has a bad count of pages",
    ),
    (MapFault::BadSize, "the memory map has a bad page size"),
    (
        MapFault::BadType,
        "the memory map has a bad letter for what may be done with pages",
    ),
    (
        MapFault::PastTheEnd,
        "the memory map has pages behind address FFFFFFFF",
    ),
    (MapFault::TooManyRanges, "the memory map has over 32 ranges"),
    (
        MapFault::Trailing,
        "the memory map has bytes behind its last range",
    ),
    (MapFault::Overlaps, "two ranges of the memory map overlap"),
];

#[test]
fn faults_say_what_is_wrong() {
    are_displayed(&TEXTS);
}
