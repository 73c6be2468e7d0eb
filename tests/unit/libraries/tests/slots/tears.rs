//! Every tear of an install, in bytes and in units.

use super::{assert_image, formatted, formatted_in_units, install, reopened};
use fustrelan::slots::{Faulty, SimMedium, Slots};
use unit::Outcome;

static TEARS: [&[u8]; 4] = [&[], &[0x00], &[0xa5], &[0xa5; 64]];

/// Installs an image over another, on a medium on which so many writes work; `gate` of them come before the last one, which
/// opens the gate. `open` then finds the new image, or else the old one.
fn try_tear(
    mut slots: Slots<SimMedium>,
    image: &[u8],
    (writes, gate): (u32, u32),
    tear: &[u8],
    stop: bool,
) -> Outcome {
    install(&mut slots, &[0xff; 4])?;
    slots.arm(writes, tear, stop);
    let installed = install(&mut slots, image).is_ok();
    assert_eq!(installed, writes > gate);
    let mut medium = slots.into_medium();
    medium.disarm();
    let slots = reopened(medium)?;
    assert_eq!(slots.put_end(), 0);
    if writes > gate || writes == gate && tear.first() == Some(&0xa5) {
        assert_image(&slots, image);
    } else {
        assert_image(&slots, &[0xff; 4]);
    }
    Ok(())
}

/// An install on a store whose spare is open makes four writes: the gate, the data, the header, the gate.
#[test]
fn every_tear_of_an_install_leaves_an_image() -> Outcome {
    for writes in 0..5 {
        for tear in TEARS {
            for stop in [false, true] {
                try_tear(formatted()?, &[1, 2, 3], (writes, 3), tear, stop)?;
            }
        }
    }
    Ok(())
}

/// In units it makes five: the gate, a unit of data, the four bytes held back, the header, the gate.
#[test]
fn every_tear_of_an_install_in_units_leaves_an_image() -> Outcome {
    let image = [
        0, 1, 2, 3, 4, 5, 6, 7, 8, 9, 10, 11, 12, 13, 14, 15, 16, 17, 18, 19,
    ];
    for writes in 0..6 {
        for tear in TEARS {
            for stop in [false, true] {
                try_tear(formatted_in_units()?, &image, (writes, 4), tear, stop)?;
            }
        }
    }
    Ok(())
}
