// Of crates/dfu_slots/src/format.rt, whose contracts are taken away.

//! Formats a medium: writes an image into the first slot, and ignores what the medium held before.

use crate::slots::gates::{close_gate, open_slot};
use crate::slots::layout::{VERSION, fill_size, make_header};
use crate::slots::operation::Op;
use crate::slots::register::register_of_image;
use crate::slots::sequence::{MAX_WRITE, Sequence};
use crate::slots::writes::write_some;
use crate::slots::{Medium, WriteFault};

// Writes `bytes` followed by zeros: `len` bytes in all, at most 4,096, with at most 256 zeros.
#[inline(never)]
fn write_padded<M: Medium>(
    medium: &mut M,
    at: u32,
    bytes: &[u8],
    len: usize,
) -> Result<(), WriteFault> {
    let mut padded = [0; 4096];
    padded[..bytes.len()].copy_from_slice(bytes);
    write_some(medium, at, &padded[..len])
}

// Writes `len` bytes of an image, the first one at index `skip`. Bytes beyond the end of the image are zeros.
fn write_part<M: Medium>(
    medium: &mut M,
    at: u32,
    image: &[u8],
    skip: usize,
    len: usize,
) -> Result<(), WriteFault> {
    if len > image.len() - skip {
        return write_padded(medium, at, &image[skip..], len);
    }
    write_some(medium, at, &image[skip..skip + len])
}

// Writes one piece of an image into the data of the first slot: up to 4,096 bytes, beginning with the image's byte `from`. The last piece
// ends with zeros that fill its unit.
fn write_piece<M: Medium>(medium: &mut M, image: &[u8], from: u32) -> Result<(), WriteFault> {
    let sequence = Sequence::Image {
        from,
        image: image.len() as u32,
    };
    match sequence.operation(medium.unit(), medium.sector(), 0) {
        Some(
            Op::Program {
                at,
                source: _,
                skip,
                len,
            },
        ) => write_part(medium, at as u32, image, skip as usize, len as usize),
        _ => unreachable!(),
    }
}

// Writes an image into the data of the first slot, piece by piece.
fn write_pieces<M: Medium>(medium: &mut M, image: &[u8]) -> Result<(), WriteFault> {
    let len = image.len() as u32;
    let end = len + fill_size(medium.unit(), len);
    let mut from = 0;
    while from < end {
        match write_piece(medium, image, from) {
            Err(fault) => return Err(fault),
            Ok(()) => from += MAX_WRITE,
        }
    }
    Ok(())
}

// Closes both gates, first the gate of the second slot.
fn close_gates<M: Medium>(medium: &mut M) -> Result<(), WriteFault> {
    let second = medium.len() / 2;
    match close_gate(medium, second) {
        Err(fault) => Err(fault),
        Ok(()) => close_gate(medium, 0),
    }
}

/// Writes `image` into the first slot and makes it the active image of `medium`.
pub(crate) fn write_image<M: Medium>(medium: &mut M, image: &[u8]) -> Result<(), WriteFault> {
    match close_gates(medium) {
        Err(fault) => Err(fault),
        Ok(()) => match write_pieces(medium, image) {
            Err(fault) => Err(fault),
            Ok(()) => {
                let register = register_of_image(medium, image);
                let head = make_header(VERSION, 0, image.len() as u32, register);
                open_slot(medium, 0, 0, &[], &head)
            }
        },
    }
}
