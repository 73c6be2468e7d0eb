// Of crates/dfu_places/src/placement.rt, whose contracts are taken away.

//! Placement of two slots on a part.

use crate::places::Span;
use crate::slots::Unit;

/// Spans of a slot's gate, header and data.
#[derive(Clone, Copy, Debug, PartialEq, Eq)]
pub struct SlotPlaces {
    /// Sectors of the gate, which are erased together. The store uses the first 16 bytes, or a unit if that is more.
    pub gate: Span,
    /// Sectors of the header, which are erased together. The store uses as many bytes as in a gate, and the marks of trials follow these.
    pub header: Span,
    /// Sectors of the data.
    pub data: Span,
}

/// Spans of two slots, and of a run area. The slot store reads and writes a *virtual* flash, in which all sectors have `sector` bytes. Each
/// slot of the virtual flash has a sector for the gate, one for the header, and the data. The store never uses virtual bytes of a gate or
/// header that are not on the part.
#[derive(Clone, Copy, Debug, PartialEq, Eq)]
pub struct Placement {
    /// Number of bytes of a virtual sector: a multiple of 256, up to 262,144. Each virtual sector of data consists of whole sectors of the
    /// part.
    pub sector: u32,
    /// First slot. With two areas, images run from its data.
    pub first: SlotPlaces,
    /// Second slot.
    pub second: SlotPlaces,
    /// Run area, to which images are copied before they start. None with two areas.
    pub run: Option<Span>,
}

/// Bootloader, unit and marks that a placement must allow for.
#[derive(Clone, Copy, Debug, PartialEq, Eq)]
pub struct Needs {
    /// Bytes of the bootloader. No sector of the bootloader may be used for anything else.
    pub boot: Span,
    /// Unit in which the part is programmed.
    pub unit: Unit,
    /// Number of bytes for the marks of trials after a header; 0 without trials. T tries need T + 1 units, of at least 16 bytes each.
    pub marks: u32,
}

// Returns the run area, or the empty span at address 0 if there is none.
fn run_span(run: Option<Span>) -> Span {
    match run {
        Some(span) => span,
        None => Span { at: 0, len: 0 },
    }
}

/// Returns the number of gates, headers, data and run areas of a placement: 7 with a run area, else 6.
pub(crate) fn things(placement: &Placement) -> u32 {
    if placement.run.is_some() { 7 } else { 6 }
}

/// Returns the span of the `Thing` of rank `i`.
pub(crate) fn span_at(placement: &Placement, i: u32) -> Span {
    if i == 0 {
        placement.first.gate
    } else if i == 1 {
        placement.first.header
    } else if i == 2 {
        placement.first.data
    } else if i == 3 {
        placement.second.gate
    } else if i == 4 {
        placement.second.header
    } else if i == 5 {
        placement.second.data
    } else {
        run_span(placement.run)
    }
}

/// Returns the number of bytes of the `Thing` of rank `i` that are erased together: a virtual sector of data, else the whole span.
pub(crate) fn part_at(placement: &Placement, i: u32) -> u32 {
    if i == 2 || i == 5 {
        placement.sector
    } else {
        span_at(placement, i).len
    }
}

/// Returns the number of bytes of the `Thing` of rank `i` that are mapped to virtual bytes: at most a virtual sector of a gate, header or
/// run area, and all data.
pub(crate) fn bytes_at(placement: &Placement, i: u32) -> u32 {
    let len = span_at(placement, i).len;
    if i == 2 || i == 5 {
        len
    } else {
        len.min(placement.sector)
    }
}

// Returns the number of bytes of a gate or of a header without marks: 16, or a unit of the part if that is more.
fn gate_size(unit: Unit) -> u32 {
    unit.size().max(16)
}

/// Returns the number of bytes that the `Thing` of rank `i` needs: for a gate 16 or a unit, whichever is more; for a header as many and the
/// marks; 1 for data or a run area.
pub(crate) fn room_at(needs: Needs, i: u32) -> u64 {
    let size = gate_size(needs.unit) as u64;
    if i == 0 || i == 3 {
        size
    } else if i == 1 || i == 4 {
        size + needs.marks as u64
    } else {
        1
    }
}
