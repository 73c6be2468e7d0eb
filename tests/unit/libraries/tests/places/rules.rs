//! The rules of a placement: each broken by one edit of a sound one, and the first of two that are broken.

use super::{F407, F407_NEEDS, F407_TWO, KIB, region, span};
use fustrelan::places::{Needs, Placement, Region, Span, check};
use fustrelan::slots::Unit;

/// What is edited, the edit, and the refusal as it is printed.
type Row = (&'static str, fn(&mut Placement), &'static str);

const ROWS: [Row; 20] = [
    ("nothing", |_| (), ""),
    ("no virtual sector", |p| p.sector = 0, "BadSector"),
    ("half a page", |p| p.sector = 128 * KIB - 128, "BadSector"),
    (
        "a virtual sector of more than 256 KiB",
        |p| p.sector = 512 * KIB,
        "BadSector",
    ),
    ("no data", |p| p.first.data.len = 0, "BadCapacity"),
    (
        "half a virtual sector of data",
        |p| p.first.data.len -= 64 * KIB,
        "BadCapacity",
    ),
    (
        "shorter second data",
        |p| p.second.data.len -= 128 * KIB,
        "Unequal(SecondData)",
    ),
    (
        "a short run area",
        |p| p.run = Some(span(0x0810_0000, 64)),
        "Unequal(RunArea)",
    ),
    (
        "a gate that begins in a sector",
        |p| p.first.gate = span(0x0800_9000, 12),
        "NotWhole(FirstGate)",
    ),
    (
        "a gate that ends in a sector",
        |p| p.first.gate.len = 4 * KIB,
        "NotWhole(FirstGate)",
    ),
    (
        "a header of two regions",
        |p| p.first.header = span(0x0800_c000, 80),
        "NotWhole(FirstHeader)",
    ),
    (
        "data beyond the part",
        |p| p.second.data.at = 0x080c_0000,
        "NotWhole(SecondData)",
    ),
    (
        "data in sectors that are larger than the virtual ones",
        |p| p.sector = 64 * KIB,
        "NotWhole(FirstData)",
    ),
    (
        "data of the smaller sectors",
        |p| p.first.data.at = 0x0800_8000,
        "NotWhole(FirstData)",
    ),
    ("no gate", |p| p.second.gate.len = 0, "NoRoom(SecondGate)"),
    (
        "a gate in the bootloader",
        |p| p.first.gate.at = 0x0800_4000,
        "InBootloader(FirstGate)",
    ),
    (
        "gate and header in one sector",
        |p| p.first.header.at = 0x0800_8000,
        "Shared(FirstGate, FirstHeader)",
    ),
    (
        "both gates in one sector",
        |p| p.second.gate = span(0x0800_8000, 16),
        "Shared(FirstGate, SecondGate)",
    ),
    (
        "the second header in the first data",
        |p| p.second.header.at = 0x0804_0000,
        "Shared(FirstData, SecondHeader)",
    ),
    (
        "data over each other",
        |p| p.second.data.at = 0x0808_0000,
        "Shared(FirstData, SecondData)",
    ),
];

fn refusal(regions: &[Region], needs: Needs, placement: &Placement) -> String {
    match check(regions, needs, placement) {
        Ok(()) => String::new(),
        Err(refusal) => format!("{refusal:?}"),
    }
}

#[test]
fn each_rule() {
    for (what, edit, wanted) in ROWS {
        let mut placement = F407_TWO;
        edit(&mut placement);
        assert_eq!(refusal(&F407, F407_NEEDS, &placement), wanted, "{what}");
    }
}

#[test]
fn regions() {
    let rows: [(&[Region], &str); 6] = [
        (&[], "NotWhole(FirstGate)"),
        (
            &[region(0x0800_0000, 16, 4), region(0x0801_0000, 64, 0)],
            "BadRegions",
        ),
        (&[region(0x0800_0000, 0, 4)], "BadRegions"),
        (
            &[region(0x0800_0000, 16, 5), region(0x0801_0000, 64, 1)],
            "BadRegions",
        ),
        (
            &[region(0x0801_0000, 64, 1), region(0x0800_0000, 16, 4)],
            "BadRegions",
        ),
        (&[region(0xffff_0000, 64, 1)], "BadRegions"),
    ];
    for (regions, wanted) in rows {
        assert_eq!(
            refusal(regions, F407_NEEDS, &F407_TWO),
            wanted,
            "{regions:?}",
            regions = regions.len()
        );
    }
}

/// A unit of 256 bytes and marks of trials behind the header want more than 16 bytes.
#[test]
fn rooms() {
    let regions = [
        region(0, 1, 64),
        Region {
            at: 0x2_0000,
            sector: 64,
            count: 64,
        },
    ];
    let small = |at, len| Span { at, len };
    let mut placement = F407_TWO;
    placement.sector = KIB;
    placement.first.data = span(0x8000, 8);
    placement.second.data = span(0xa000, 8);
    placement.first.gate = small(0x2_0000, 64);
    placement.first.header = small(0x2_0040, 192);
    placement.second.gate = small(0x2_0100, 64);
    placement.second.header = small(0x2_0140, 128);
    let needs = |unit, marks| Needs {
        boot: span(0, 32),
        unit,
        marks,
    };
    assert_eq!(refusal(&regions, needs(Unit::U64, 64), &placement), "");
    assert_eq!(refusal(&regions, needs(Unit::U16, 112), &placement), "");
    assert_eq!(
        refusal(&regions, needs(Unit::U16, 113), &placement),
        "NoRoom(SecondHeader)"
    );
    assert_eq!(
        refusal(&regions, needs(Unit::U256, 0), &placement),
        "NoRoom(FirstGate)"
    );
}

/// A run area has sectors of its own, of any size.
#[test]
fn a_run_area() {
    let mut placement = F407_TWO;
    placement.first.data = span(0x0804_0000, 256);
    placement.second.data = span(0x0808_0000, 256);
    placement.run = Some(span(0x080c_0000, 256));
    assert_eq!(refusal(&F407, F407_NEEDS, &placement), "");
    placement.run = Some(span(0x080a_0000, 256));
    assert_eq!(
        refusal(&F407, F407_NEEDS, &placement),
        "Shared(SecondData, RunArea)"
    );
}
