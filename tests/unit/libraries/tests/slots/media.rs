//! What `open` and `format` say of a medium.

use super::reopened;
use fustrelan::memory::Global;
use fustrelan::slots::{FormatFault, Medium, OpenFault, SimMedium, Slots, Unit};
use unit::Outcome;

/// Why `format` refuses, if it does.
fn format_fault(medium: SimMedium, image: &[u8]) -> Option<FormatFault> {
    Slots::format(medium, image).err().map(|(fault, _)| fault)
}

/// The length of the active image that `open` finds, or what is wrong.
fn open_len(medium: SimMedium) -> Result<u32, OpenFault> {
    Ok(reopened(medium)?.active_len())
}

/// A gate unit and a header unit with this gate, generation, version and length, as they are at the front of a slot
/// of version 1.
pub fn slot_front([gate, generation, version, len]: [u8; 4]) -> [u8; 32] {
    let mut front = [0; 32];
    front[0] = gate;
    front[16] = generation;
    front[17] = version;
    front[20] = len;
    front
}

/// A medium with these two slots, and all else FFh.
pub fn with_slots(first: [u8; 4], second: [u8; 4]) -> Outcome<SimMedium> {
    let mut medium = SimMedium::new(Global, 192)?;
    medium.write(0, &slot_front(first))?;
    medium.write(96, &slot_front(second))?;
    Ok(medium)
}

/// The fronts of both slots, and the length of the active image or what is wrong.
type Row = ([u8; 4], [u8; 4], Result<u32, OpenFault>);

static MEDIA: [Row; 8] = [
    ([0xa5, 255, 1, 2], [0xa5, 0, 1, 3], Ok(3)),
    ([0xa5, 0, 1, 2], [0xa5, 255, 1, 3], Ok(2)),
    ([0xa5, 7, 1, 64], [0x5a, 8, 1, 3], Ok(64)),
    ([0xa5, 0, 1, 2], [0xa5, 2, 1, 3], Err(OpenFault::TwoImages)),
    ([0xa5, 4, 1, 2], [0xa5, 4, 1, 3], Err(OpenFault::TwoImages)),
    ([0x00, 0, 1, 2], [0x00, 1, 1, 3], Err(OpenFault::NoImage)),
    ([0xa5, 0, 3, 2], [0x00, 1, 1, 3], Err(OpenFault::BadHeader)),
    ([0xa5, 0, 1, 65], [0x00, 1, 1, 3], Err(OpenFault::BadHeader)),
];

#[test]
fn open_tells_what_is_wrong_with_a_medium() -> Outcome {
    for (first, second, want) in &MEDIA {
        let medium = with_slots(*first, *second)?;
        assert_eq!(open_len(medium), *want);
    }
    Ok(())
}

/// A medium in units of 16, whose capacity would be 24.
fn odd() -> Outcome<SimMedium> {
    Ok(SimMedium::with_unit(Global, 112, Unit::U16)?)
}

#[test]
fn a_medium_with_a_wrong_length_is_refused() -> Outcome {
    assert_eq!(
        open_len(SimMedium::new(Global, 65)?),
        Err(OpenFault::WrongSize)
    );
    assert_eq!(open_len(odd()?), Err(OpenFault::WrongSize));
    assert_eq!(
        format_fault(SimMedium::new(Global, 64)?, &[]),
        Some(FormatFault::WrongSize)
    );
    assert_eq!(format_fault(odd()?, &[]), Some(FormatFault::WrongSize));
    assert_eq!(
        format_fault(SimMedium::new(Global, 192)?, &[0; 65]),
        Some(FormatFault::TooLarge)
    );
    Ok(())
}
