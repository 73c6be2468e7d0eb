// Of crates/dfu_slots/src/steps.rt, whose contracts are taken away.

//! Performs `begin`, `put` and `commit` on a medium and the state of its puts.

use crate::slots::gates::{close_gate, open_slot};
use crate::slots::layout::{VERSION, capacity_of, make_header};
use crate::slots::places::Places;
use crate::slots::puts::{Puts, put_units};
use crate::slots::read::{generation, is_open};
use crate::slots::register::register_of_put;
use crate::slots::{Medium, PutFault, WriteFault};

// Closes the spare's gate if it is open.
fn close_spare<M: Medium>(medium: &mut M, places: Places) -> Result<(), WriteFault> {
    if is_open(medium, places.spare) {
        return close_gate(medium, places.spare);
    }
    Ok(())
}

/// Closes the spare's gate if it is open, and discards the bytes put.
pub(crate) fn begin<M: Medium>(
    medium: &mut M,
    puts: &mut Puts,
    places: Places,
) -> Result<(), PutFault> {
    puts.clear();
    match close_spare(medium, places) {
        Ok(()) => Ok(()),
        Err(WriteFault::Failed) => Err(PutFault::Failed),
        Err(WriteFault::NotVerified) => Err(PutFault::NotVerified),
    }
}

/// Puts `bytes` at offset `at` of the spare's data, the end of the bytes put before: writes their whole units, and holds the rest back.
pub(crate) fn put<M: Medium>(
    medium: &mut M,
    puts: &mut Puts,
    places: Places,
    at: u32,
    bytes: &[u8],
) -> Result<(), PutFault> {
    if is_open(medium, places.spare) {
        return Err(PutFault::NotBegun);
    }
    if u64::from(at) + bytes.len() as u64 > u64::from(capacity_of(medium)) {
        return Err(PutFault::TooLarge);
    }
    match put_units(medium, &mut puts.held, places.spare, at, bytes) {
        Ok(()) => {
            puts.end += bytes.len() as u32;
            Ok(())
        }
        Err(WriteFault::Failed) => {
            puts.clear();
            Err(PutFault::Failed)
        }
        Err(WriteFault::NotVerified) => {
            puts.clear();
            Err(PutFault::NotVerified)
        }
    }
}

// Writes the bytes held back, then the spare's header, and then, in a separate write, its open gate.
fn open_spare<M: Medium>(
    medium: &mut M,
    places: Places,
    puts: &Puts,
    len: u32,
) -> Result<(), WriteFault> {
    let next = generation(medium, places.active).wrapping_add(1);
    let held = puts.held.as_slice();
    let at = puts.end - held.len() as u32;
    let register = register_of_put(medium, places.spare, at, held, len);
    let head = make_header(VERSION, next, len, register);
    open_slot(medium, places.spare, puts.end, held, &head)
}

/// Writes the bytes held back and the spare's header for an image of the first `len` bytes put, opens the spare's gate, and discards the
/// bytes put.
pub(crate) fn commit<M: Medium>(
    medium: &mut M,
    puts: &mut Puts,
    places: Places,
    len: u32,
) -> Result<(), PutFault> {
    if is_open(medium, places.spare) {
        return Err(PutFault::NotBegun);
    }
    let installed = open_spare(medium, places, puts, len);
    puts.clear();
    match installed {
        Ok(()) => Ok(()),
        Err(WriteFault::Failed) => Err(PutFault::Failed),
        Err(WriteFault::NotVerified) => Err(PutFault::NotVerified),
    }
}
