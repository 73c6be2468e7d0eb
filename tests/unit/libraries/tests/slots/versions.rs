//! Headers of version 1 and of version 2, whole and damaged.

use super::media::with_slots;
use super::{assert_image, formatted, install, reopened};
use fustrelan::slots::{Medium, OpenFault, SimMedium, Slots};
use unit::Outcome;

/// 192 bytes with 00h in the first slot, and FFh four times, which is active, in the second one, both of version 2.
fn installed() -> Outcome<SimMedium> {
    let mut slots = formatted()?;
    install(&mut slots, &[0xff; 4])?;
    Ok(slots.into_medium())
}

/// The same images in slots of version 1.
fn installed_before() -> Outcome<SimMedium> {
    let mut medium = with_slots([0xa5, 0, 1, 1], [0xa5, 1, 1, 4])?;
    put_byte(&mut medium, 32, 0)?;
    Ok(medium)
}

/// Writes one byte past the store.
fn put_byte(medium: &mut SimMedium, at: u32, byte: u8) -> Outcome {
    medium.write(at, &[byte])?;
    Ok(())
}

/// With one byte changed the medium has this active image.
fn assert_changed(
    mut medium: SimMedium,
    (at, byte): (u32, u8),
    image: &[u8],
) -> Outcome<SimMedium> {
    put_byte(&mut medium, at, byte)?;
    let slots = reopened(medium)?;
    assert_image(&slots, image);
    Ok(slots.into_medium())
}

/// The generation and the version of the slot that begins there.
fn front_of(medium: &SimMedium, at: u32) -> [u8; 2] {
    let mut front = [0; 2];
    medium.read(at + 16, &mut front);
    front
}

/// Places of the active slot of version 2 that are damaged, and their new bytes: in the data, the register, the first
/// zero bytes, the last ones, and the length, which is wrong or over the capacity.
#[rustfmt::skip]
static DAMAGES: [(u32, u8); 10] = [
    (128, 0x00), (131, 0xfe), (120, 0x01), (123, 0x80), (114, 0x01), (115, 0xff), (124, 0x01), (127, 0x01), (116, 3), (116, 65),
];

#[test]
fn a_damaged_slot_does_not_count() -> Outcome {
    for damage in &DAMAGES {
        let mut medium = assert_changed(installed()?, *damage, &[0x00])?;
        put_byte(&mut medium, 32, 0x01)?;
        assert_eq!(reopened(medium).err(), Some(OpenFault::NoImage));
    }
    Ok(())
}

/// After the image any byte may change.
#[test]
fn what_stands_behind_an_image_is_not_looked_at() -> Outcome {
    assert_changed(installed()?, (132, 0x00), &[0xff; 4])?;
    Ok(())
}

/// A version other than 1 and 2 counts by its gate, so it is active, and its header is not well formed.
#[test]
fn another_version_is_a_bad_header() -> Outcome {
    for version in [0, 3, 0xff] {
        let mut medium = installed()?;
        put_byte(&mut medium, 113, version)?;
        assert_eq!(reopened(medium).err(), Some(OpenFault::BadHeader));
    }
    Ok(())
}

/// The next image goes into the spare, whatever its version was, and is of version 2.
#[test]
fn a_medium_of_version_1_opens_and_goes_on_in_version_2() -> Outcome {
    let mut slots = reopened(installed_before()?)?;
    assert_image(&slots, &[0xff; 4]);
    install(&mut slots, &[0x31, 0x32, 0x33])?;
    assert_image(&slots, &[0x31, 0x32, 0x33]);
    let medium = slots.into_medium();
    assert_eq!(front_of(&medium, 0), [2, 2]);
    assert_eq!(front_of(&medium, 96), [1, 1]);
    assert_changed(reopened(medium)?.into_medium(), (33, 0x00), &[0xff; 4])?;
    Ok(())
}

/// Here the active slot is of version 1, and the spare, open too, of version 2, whole or damaged.
#[test]
fn a_spare_of_version_2_beside_version_1_stays_the_spare() -> Outcome {
    for (at, byte) in [(0, 0xa5), (32, 0x01), (24, 0x00)] {
        let old = installed_before()?;
        let mut half = [0; 96];
        old.read(96, &mut half);
        let mut medium = formatted()?.into_medium();
        medium.write(96, &half)?;
        put_byte(&mut medium, at, byte)?;
        let mut slots = reopened(medium)?;
        assert_image(&slots, &[0xff; 4]);
        install(&mut slots, &[7])?;
        assert_image(&slots, &[7]);
    }
    Ok(())
}

/// An open spare that does not count stays one that does not, whatever a torn write leaves of its gate.
fn assert_begin_torn(mut slots: Slots<SimMedium>, tear: &[u8]) -> Outcome {
    slots.arm(0, tear, false);
    assert!(slots.begin().is_err());
    assert_image(&slots, &[0x00]);
    let mut slots = reopened(slots.into_medium())?;
    assert_image(&slots, &[0x00]);
    install(&mut slots, &[5, 6])?;
    assert_image(&slots, &[5, 6]);
    Ok(())
}

#[test]
fn a_spare_that_does_not_count_is_begun() -> Outcome {
    for tear in [&[][..], &[0x00][..], &[0xa5][..], &[0xa5; 16][..]] {
        let mut medium = installed()?;
        put_byte(&mut medium, 128, 0x00)?;
        assert_begin_torn(reopened(medium)?, tear)?;
    }
    Ok(())
}
