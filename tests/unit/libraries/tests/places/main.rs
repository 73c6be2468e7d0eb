//! Placements, by the sectors of parts: rows worked out by hand.

mod plans;
mod rules;
mod translations;

use fustrelan::places::{Needs, Placement, Region, SlotPlaces, Span};
use fustrelan::slots::Unit;

const KIB: u32 = 1024;

const fn region(at: u32, kib: u32, count: u32) -> Region {
    Region {
        at,
        sector: kib * KIB,
        count,
    }
}

const fn span(at: u32, kib: u32) -> Span {
    Span { at, len: kib * KIB }
}

/// A bootloader of 32 KiB at the begin of a part.
const fn needs(at: u32) -> Needs {
    Needs {
        boot: span(at, 32),
        unit: Unit::U16,
        marks: 0,
    }
}

/// STM32F407 of 1 MiB.
const F407: [Region; 3] = [
    region(0x0800_0000, 16, 4),
    region(0x0801_0000, 64, 1),
    region(0x0802_0000, 128, 7),
];
const F407_NEEDS: Needs = needs(0x0800_0000);

/// Two areas on it: gates and headers take what is left of 16 KiB, the sector of 64 and one of 128.
const F407_TWO: Placement = Placement {
    sector: 128 * KIB,
    first: SlotPlaces {
        gate: span(0x0800_8000, 16),
        header: span(0x0800_c000, 16),
        data: span(0x0804_0000, 384),
    },
    second: SlotPlaces {
        gate: span(0x0801_0000, 64),
        header: span(0x0802_0000, 128),
        data: span(0x080a_0000, 384),
    },
    run: None,
};

/// The numbers of a placement: the virtual sector, and the address and the KiB of each thing.
fn numbers(placement: &Placement) -> Vec<(u32, u32)> {
    let Placement {
        sector,
        first,
        second,
        run,
    } = *placement;
    let mut spans = vec![
        first.gate,
        first.header,
        first.data,
        second.gate,
        second.header,
        second.data,
    ];
    spans.extend(run);
    let mut numbers = vec![(0, sector / KIB)];
    numbers.extend(spans.iter().map(|it| (it.at, it.len / KIB)));
    numbers
}
