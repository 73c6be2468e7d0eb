// Of crates/dfu_home/src/copying.rt, whose contracts are taken away.

//! Operations that copy the image of the second slot into the first: its bytes, then its header, and then the gate, which opens the slot.

use crate::home::Due;
use crate::home::bytes::{are_same, fill_up};
use crate::boot::install::{self, are_blank};
use crate::slots::{
    Medium, OPEN_GATE, VERSION, crc_of_flash, gate_of, header_of, length_in, make_header,
};

// Returns the offset of the last operation in the first slot's data, which begins at `gates`. None if there was no operation or it lay
// before the data.
fn last_in_data(gates: u32, last: Option<u32>) -> Option<u32> {
    match last {
        None => None,
        Some(at) => { if at < gates { None } else { Some(at - gates) } }
    }
}

// Returns the header of the copy of an image with the header `found`. The copy has the next generation after that in `found`.
fn copy_header(found: &[u8; 16], image: &[u8]) -> [u8; 16] {
    make_header(
        VERSION,
        found[0].wrapping_add(1),
        length_in(found),
        crc_of_flash(image).value(),
    )
}

// Returns the data of the first slot.
fn first_data<'f, M: Medium>(medium: &M, flash: &'f [u8]) -> &'f [u8] {
    let half = medium.len() / 2;
    let gates = 2 * gate_of(medium);
    &flash[gates as usize..half as usize]
}

// Returns the image in the second slot.
fn away_image<'f, M: Medium>(medium: &M, flash: &'f [u8]) -> &'f [u8] {
    let half = medium.len() / 2;
    let from = half + 2 * gate_of(medium);
    let data = &flash[from as usize..(half + half) as usize];
    &data[..length_in(&header_of(medium, half)) as usize]
}

// Returns the number of bytes of a gate unit; a header unit has as many.
fn gate_size<M: Medium>(medium: &M) -> u32 {
    16.max(medium.unit().size())
}

// Returns the next operation of the gate unit or header unit at `at`, which must contain `front` and zeros after it: a program if the last
// operation erased the unit's sector, else the erase. For a program, the unit is at the front of `out`.
fn unit_due<M: Medium>(
    medium: &M,
    flash: &[u8],
    at: u32,
    last: Option<u32>,
    front: &[u8],
    out: &mut [u8; 256],
) -> Due {
    let len = gate_size(medium);
    if last != Some(at) {
        return Due::Erase { at };
    }
    if !are_blank(flash, at, at + len) {
        return Due::Erase { at };
    }
    fill_up(front, out);
    Due::Program { at, len }
}

// Returns true if the first slot has this header.
fn has_header<M: Medium>(medium: &M, flash: &[u8], header: &[u8; 16]) -> bool {
    let at = gate_of(medium) as usize;
    are_same(&flash[at..at + 16], header)
}

// Returns the next operation once the bytes are copied: that of the header or, once the header is copied, that of the gate.
fn head<M: Medium>(
    medium: &M,
    flash: &[u8],
    image: &[u8],
    last: Option<u32>,
    out: &mut [u8; 256],
) -> Due {
    let header = copy_header(&header_of(medium, medium.len() / 2), image);
    if has_header(medium, flash, &header) {
        return unit_due(medium, flash, 0, last, &[OPEN_GATE], out);
    }
    unit_due(medium, flash, gate_of(medium), last, &header, out)
}

/// Returns the next operation of a copy, an erase or a program. The bytes of a program are at the front of `out`.
pub(crate) fn copy<M: Medium>(
    medium: &M,
    flash: &[u8],
    last: Option<u32>,
    out: &mut [u8; 256],
) -> Due {
    let gates = 2 * gate_of(medium);
    let run = first_data(medium, flash);
    let image = away_image(medium, flash);
    match install::next(image, run, medium.sector(), last_in_data(gates, last)) {
        install::Due::Erase(at) => Due::Erase { at: gates + at },
        install::Due::Program(at) => {
            install::piece(image, at, out);
            Due::Program {
                at: gates + at,
                len: 256,
            }
        }
        install::Due::Start => head(medium, flash, image, last, out),
        install::Due::Refuse(install::InstallRefusal::NoImage) => head(
            medium, flash, image, last, out,
        ),
        install::Due::Refuse(_) => unreachable!(),
    }
}
