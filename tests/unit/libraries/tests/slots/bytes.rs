//! Whole media, byte for byte.

use super::{assert_image, bytes_of, format, install, spread};
use fustrelan::memory::Global;
use fustrelan::slots::{Medium, NoMemory, SimMedium, Unit};
use unit::{Outcome, refusing};

/// An install of FFh four times over 00h, on 192 bytes that are written in bytes: runs of a byte, each with its length.
#[rustfmt::skip]
static IN_BYTES: [(u8, usize); 20] = [
    (0xa5, 1), (0, 16), (2, 1), (0, 2), (1, 1), (0, 3), (0x72, 1), (0x10, 1), (0xfd, 1), (0x2d, 1), (0, 5), (0xff, 63),
    (0xa5, 1), (0, 15), (1, 1), (2, 1), (0, 2), (4, 1), (0, 11), (0xff, 64),
];

/// The same on 384 bytes in units of 64.
#[rustfmt::skip]
static IN_UNITS: [(u8, usize); 20] = [
    (0xa5, 1), (0, 64), (2, 1), (0, 2), (1, 1), (0, 3), (0x72, 1), (0x10, 1), (0xfd, 1), (0x2d, 1), (0, 116),
    (0xa5, 1), (0, 63), (1, 1), (2, 1), (0, 2), (4, 1), (0, 59), (0xff, 4), (0, 60),
];

/// An install leaves these bytes.
fn assert_installed(medium: SimMedium, runs: &[(u8, usize)]) -> Outcome {
    let mut slots = format(medium)?;
    assert_eq!(slots.capacity(), 64);
    install(&mut slots, &[0xff; 4])?;
    assert_image(&slots, &[0xff; 4]);
    assert_eq!(bytes_of(slots.medium()), spread(runs));
    Ok(())
}

#[test]
fn an_install_leaves_these_bytes() -> Outcome {
    assert_installed(SimMedium::new(Global, 192)?, &IN_BYTES)
}

#[test]
fn an_install_in_units_of_64_leaves_these_bytes() -> Outcome {
    assert_installed(SimMedium::with_unit(Global, 384, Unit::U64)?, &IN_UNITS)
}

#[test]
fn a_medium_is_made_where_there_is_memory() -> Outcome {
    let refused = refusing::after(0, || SimMedium::new(Global, 192));
    assert_eq!(refused.err(), Some(NoMemory));
    assert_eq!(bytes_of(&SimMedium::new(Global, 192)?), [0xff; 192]);
    Ok(())
}

#[test]
fn a_medium_in_units_is_made_where_there_is_memory() -> Outcome {
    let refused = refusing::after(0, || SimMedium::with_unit(Global, 192, Unit::U64));
    assert_eq!(refused.err(), Some(NoMemory));
    let medium = SimMedium::with_unit(Global, 192, Unit::U64)?;
    assert_eq!(medium.unit(), Unit::U64);
    assert_eq!(bytes_of(&medium), [0xff; 192]);
    Ok(())
}

#[test]
fn units_have_these_sizes() {
    for (unit, size) in [
        (Unit::Byte, 1),
        (Unit::U16, 16),
        (Unit::U64, 64),
        (Unit::U256, 256),
    ] {
        assert_eq!(unit.size(), size);
    }
}
