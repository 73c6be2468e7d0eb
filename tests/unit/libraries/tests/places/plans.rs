//! Plans: the largest image of each part behind a bootloader of 32 KiB.

use super::{F407, F407_NEEDS, F407_TWO, KIB, needs, numbers, region, span};
use fustrelan::places::{Areas, Needs, PlacementRefusal, Region, check, plan};
use fustrelan::slots::Unit;

/// A part, its regions, and KiB of the largest image in two areas and with a run area; 0: there is no placement.
type Row = (&'static str, &'static [Region], u32, u32);

const ROWS: [Row; 12] = [
    ("STM32F103xB", &[region(0x0800_0000, 1, 128)], 46, 30),
    (
        "STM32F401xC",
        &[
            region(0x0800_0000, 16, 4),
            region(0x0801_0000, 64, 1),
            region(0x0802_0000, 128, 1),
        ],
        0,
        0,
    ),
    (
        "STM32F411xE",
        &[
            region(0x0800_0000, 16, 4),
            region(0x0801_0000, 64, 1),
            region(0x0802_0000, 128, 3),
        ],
        128,
        0,
    ),
    ("STM32F407xG", &F407, 384, 256),
    (
        "STM32F429xI",
        &[
            region(0x0800_0000, 16, 4),
            region(0x0801_0000, 64, 1),
            region(0x0802_0000, 128, 7),
            region(0x0810_0000, 16, 4),
            region(0x0811_0000, 64, 1),
            region(0x0812_0000, 128, 7),
        ],
        896,
        384,
    ),
    ("STM32H743xI", &[region(0x0800_0000, 128, 16)], 640, 384),
    (
        "STM32L053x8",
        &[Region {
            at: 0x0800_0000,
            sector: 128,
            count: 512,
        }],
        15,
        10,
    ),
    ("nRF52832", &[region(0, 4, 128)], 232, 152),
    ("nRF52840", &[region(0, 4, 256)], 488, 324),
    (
        "RP2040 with 2 MiB",
        &[region(0x1000_0000, 4, 512)],
        1000,
        664,
    ),
    (
        "STM32H743xI and FRAM of 32 KiB",
        &[
            region(0x0800_0000, 128, 16),
            Region {
                at: 0x6000_0000,
                sector: 256,
                count: 128,
            },
        ],
        896,
        640,
    ),
    ("64 KiB in one sector", &[region(0, 64, 1)], 0, 0),
];

#[test]
fn the_largest_image_of_each_part() {
    for (part, regions, two, three) in ROWS {
        let needs = needs(regions[0].at);
        for (areas, kib) in [(Areas::Two, two), (Areas::Three, three)] {
            match plan(regions, needs, areas) {
                Ok(placement) => {
                    assert_eq!(
                        placement.first.data.len / KIB,
                        kib,
                        "{part}, {areas:?}: {:x?}",
                        numbers(&placement)
                    );
                    assert!(check(regions, needs, &placement).is_ok(), "{part}");
                    assert_eq!(
                        placement.run.is_some(),
                        matches!(areas, Areas::Three),
                        "{part}"
                    );
                }
                Err(refusal) => assert_eq!(
                    (format!("{refusal:?}").as_str(), kib),
                    ("NoPlacement", 0),
                    "{part}, {areas:?}"
                ),
            }
        }
    }
}

#[test]
fn the_places_on_an_f407() {
    let placement = plan(&F407, F407_NEEDS, Areas::Two).unwrap();
    assert_eq!(numbers(&placement), numbers(&F407_TWO));
}

/// A bootloader at the end of the part, as Nordic's, leaves what is before it.
#[test]
fn a_bootloader_at_the_end() {
    let needs = Needs {
        boot: span(0x7_8000, 32),
        unit: Unit::U16,
        marks: 0,
    };
    let placement = plan(&[region(0, 4, 128)], needs, Areas::Two).unwrap();
    assert_eq!(
        (
            placement.first.gate.at,
            placement.first.data.at,
            placement.first.data.len
        ),
        (0, 0x4000, 232 * KIB)
    );
}

/// Marks of trials go behind a header: sectors that have no room for both are left out.
#[test]
fn marks_need_room() {
    let regions = [
        Region {
            at: 0,
            sector: 256,
            count: 64,
        },
        region(0x1_0000, 4, 64),
    ];
    let needs = |marks| Needs {
        boot: span(0x1_0000, 32),
        unit: Unit::U16,
        marks,
    };
    assert_eq!(
        plan(&regions, needs(240), Areas::Three)
            .unwrap()
            .first
            .header
            .len,
        256
    );
    assert_eq!(
        plan(&regions, needs(241), Areas::Three)
            .unwrap()
            .first
            .header
            .len,
        4096
    );
}

#[test]
fn regions_out_of_order() {
    let regions = [region(0x0802_0000, 128, 7), region(0x0800_0000, 16, 4)];
    assert!(matches!(
        plan(&regions, F407_NEEDS, Areas::Two),
        Err(PlacementRefusal::BadRegions)
    ));
}
