//! Stores on a simulated medium: what their calls answer, the bytes that they leave, and every tear of an install.

use fustrelan::memory::Global;
use fustrelan::slots::{Medium, OpenFault, PutFault, SimMedium, Slots, Unit};
use unit::Outcome;
use unit::refusing::Refusing;

mod bytes;
mod image;
mod lies;
mod media;
mod noted;
mod rows;
mod sectors;
mod tears;
mod texts;
mod versions;

#[global_allocator]
static ALLOCATOR: Refusing = Refusing;

/// A store on this medium, formatted with the one byte 00h.
fn format(medium: SimMedium) -> Outcome<Slots<SimMedium>> {
    Ok(Slots::format(medium, &[0]).map_err(|(fault, _)| fault)?)
}

/// A store on 192 bytes, so with room for 64 bytes.
fn formatted() -> Outcome<Slots<SimMedium>> {
    format(SimMedium::new(Global, 192)?)
}

/// The same in units of 16.
fn formatted_in_units() -> Outcome<Slots<SimMedium>> {
    format(SimMedium::with_unit(Global, 192, Unit::U16)?)
}

/// Opens the medium again.
fn reopened(medium: SimMedium) -> Result<Slots<SimMedium>, OpenFault> {
    Slots::open(medium).map_err(|(fault, _)| fault)
}

/// Installs an image in one piece.
fn install<M: Medium>(slots: &mut Slots<M>, image: &[u8]) -> Result<(), PutFault> {
    slots.begin()?;
    slots.put(0, image)?;
    slots.commit(image.len() as u32)
}

/// The active image is these bytes.
fn assert_image(slots: &Slots<SimMedium>, want: &[u8]) {
    let mut image = vec![0; slots.active_len() as usize];
    slots.read_active(0, &mut image);
    assert_eq!(image, want);
}

/// The bytes of these runs: each is a byte, and how many of it.
fn spread<'a>(runs: impl IntoIterator<Item = &'a (u8, usize)>) -> Vec<u8> {
    let mut bytes = Vec::new();
    for (byte, count) in runs {
        bytes.resize(bytes.len() + count, *byte);
    }
    bytes
}

/// The bytes of a medium.
fn bytes_of(medium: &SimMedium) -> Vec<u8> {
    let mut bytes = vec![0; medium.len() as usize];
    medium.read(0, &mut bytes);
    bytes
}
