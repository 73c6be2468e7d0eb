//! Writes that answer Ok and leave other bytes: what the calls answer then, and which image is active.

use super::rows::Step::{Arm, Begin, Commit, Disarm, Lie, Put};
use super::rows::{Row, play};
use super::{assert_image, format, formatted, install, reopened};
use fustrelan::memory::Global;
use fustrelan::slots::{Faulty, FormatFault, OpenFault, PutFault, SimMedium, Slots, Unit};
use unit::Outcome;

/// A store on 160 bytes, so with room for 48 bytes.
fn small() -> Outcome<Slots<SimMedium>> {
    format(SimMedium::new(Global, 160)?)
}

/// The same in units of 16.
fn small_in_units() -> Outcome<Slots<SimMedium>> {
    format(SimMedium::with_unit(Global, 160, Unit::U16)?)
}

/// Does these rows, and then this image is active, and `open` finds it on the medium.
fn assert_rows(mut slots: Slots<SimMedium>, rows: &[Row], image: &[u8]) -> Outcome {
    play(&mut slots, rows);
    assert_image(&slots, image);
    assert_image(&reopened(slots.into_medium())?, image);
    Ok(())
}

#[rustfmt::skip]
static LIE_IN_A_PUT: [Row; 3] = [
    (Lie(0, &[0xaa]), Ok(()), 0, 1),
    (Begin, Ok(()), 0, 1),
    (Put(&[0xff; 4]), Err(PutFault::NotVerified), 0, 1),
];

/// The write of the header, and then that of the gate, which stays closed.
#[rustfmt::skip]
static LIES_IN_A_COMMIT: [Row; 7] = [
    (Put(&[0xff; 4]), Ok(()), 4, 1),
    (Lie(0, &[0x5a]), Ok(()), 4, 1),
    (Commit(4), Err(PutFault::NotVerified), 0, 1),
    (Begin, Ok(()), 0, 1),
    (Put(&[0xff; 4]), Ok(()), 4, 1),
    (Lie(1, &[0x5a]), Ok(()), 4, 1),
    (Commit(4), Err(PutFault::NotVerified), 0, 1),
];

/// A put of no bytes writes nothing, so the lie is still armed after it.
#[rustfmt::skip]
static REFUSED_BESIDE_A_LIE: [Row; 4] = [
    (Lie(0, &[0xaa]), Ok(()), 0, 1),
    (Put(&[0xff; 49]), Err(PutFault::TooLarge), 0, 1),
    (Put(&[]), Ok(()), 0, 1),
    (Put(&[0xff; 48]), Err(PutFault::NotVerified), 0, 1),
];

#[test]
fn a_lie_leaves_the_old_image() -> Outcome {
    for rows in [
        &LIE_IN_A_PUT[..],
        &LIES_IN_A_COMMIT[..],
        &REFUSED_BESIDE_A_LIE[..],
    ] {
        assert_rows(small()?, rows, &[0x00])?;
    }
    Ok(())
}

/// The gate's unit is other than it was written, and open.
#[rustfmt::skip]
static OPEN_GATE: [Row; 3] = [
    (Put(&[0xff; 4]), Ok(()), 4, 1),
    (Lie(1, &[0xa5, 0x01]), Ok(()), 4, 1),
    (Commit(4), Err(PutFault::NotVerified), 0, 4),
];

/// Here the tear is what was written: in the data, and in the gate, whose old bytes after the first are zeros too.
#[rustfmt::skip]
static LIES_THAT_ARE_TRUE: [Row; 4] = [
    (Lie(0, &[0xff; 8]), Ok(()), 0, 1),
    (Put(&[0xff; 4]), Ok(()), 4, 1),
    (Lie(1, &[0xa5]), Ok(()), 4, 1),
    (Commit(4), Ok(()), 0, 4),
];

/// Only one write lies.
#[rustfmt::skip]
static NEXT_DOWNLOAD: [Row; 6] = [
    (Lie(0, &[0xaa]), Ok(()), 0, 1),
    (Put(&[0xff; 4]), Err(PutFault::NotVerified), 0, 1),
    (Begin, Ok(()), 0, 1),
    (Put(&[0xff; 3]), Ok(()), 3, 1),
    (Put(&[0xff]), Ok(()), 4, 1),
    (Commit(4), Ok(()), 0, 4),
];

/// With the spare's gate open: what `begin` writes there lies, and leaves it open, closed by another byte, or as it should be.
#[rustfmt::skip]
static LIES_IN_A_BEGIN: [Row; 10] = [
    (Put(&[0xff; 4]), Ok(()), 4, 1),
    (Commit(4), Ok(()), 0, 4),
    (Lie(0, &[0xa5]), Ok(()), 0, 4),
    (Put(&[1]), Err(PutFault::NotBegun), 0, 4),
    (Commit(0), Err(PutFault::NotBegun), 0, 4),
    (Begin, Err(PutFault::NotVerified), 0, 4),
    (Put(&[1]), Err(PutFault::NotBegun), 0, 4),
    (Lie(0, &[0x5a]), Ok(()), 0, 4),
    (Begin, Err(PutFault::NotVerified), 0, 4),
    (Begin, Ok(()), 0, 4),
];

/// `arm_lie`, `arm` and `disarm` each end what the one before set; a lie that no write meets does nothing.
#[rustfmt::skip]
static REPLACED: [Row; 13] = [
    (Arm(0, &[], true), Ok(()), 0, 1),
    (Lie(0, &[0xaa]), Ok(()), 0, 1),
    (Put(&[0xff; 4]), Err(PutFault::NotVerified), 0, 1),
    (Lie(0, &[0xaa]), Ok(()), 0, 1),
    (Arm(0, &[0xaa], false), Ok(()), 0, 1),
    (Put(&[0xff; 4]), Err(PutFault::Failed), 0, 1),
    (Lie(0, &[0xaa]), Ok(()), 0, 1),
    (Disarm, Ok(()), 0, 1),
    (Put(&[0xff; 2]), Ok(()), 2, 1),
    (Lie(0, &[0xaa]), Ok(()), 2, 1),
    (Lie(4, &[0xaa]), Ok(()), 2, 1),
    (Put(&[0xff; 2]), Ok(()), 4, 1),
    (Commit(4), Ok(()), 0, 4),
];

#[test]
fn a_download_with_a_lie_leaves_the_new_image() -> Outcome {
    for rows in [
        &OPEN_GATE[..],
        &LIES_THAT_ARE_TRUE[..],
        &NEXT_DOWNLOAD[..],
        &LIES_IN_A_BEGIN[..],
        &REPLACED[..],
    ] {
        assert_rows(small()?, rows, &[0xff; 4])?;
    }
    Ok(())
}

/// A put of two writes whose second lies, and then a commit of three: what was held, the header, and the gate. At last a
/// lie in `begin`, and one in the gate that is true.
#[rustfmt::skip]
static IN_UNITS: [Row; 17] = [
    (Put(&[2; 5]), Ok(()), 5, 1),
    (Lie(1, &[0xaa]), Ok(()), 5, 1),
    (Put(&[2; 30]), Err(PutFault::NotVerified), 0, 1),
    (Put(&[2; 20]), Ok(()), 20, 1),
    (Lie(0, &[0xaa]), Ok(()), 20, 1),
    (Commit(20), Err(PutFault::NotVerified), 0, 1),
    (Put(&[2; 20]), Ok(()), 20, 1),
    (Lie(1, &[0x5a]), Ok(()), 20, 1),
    (Commit(20), Err(PutFault::NotVerified), 0, 1),
    (Put(&[2; 20]), Ok(()), 20, 1),
    (Lie(2, &[0xa5, 0x01]), Ok(()), 20, 1),
    (Commit(20), Err(PutFault::NotVerified), 0, 20),
    (Lie(0, &[0x5a]), Ok(()), 0, 20),
    (Begin, Err(PutFault::NotVerified), 0, 20),
    (Put(&[3; 20]), Ok(()), 20, 20),
    (Lie(2, &[0xa5]), Ok(()), 20, 20),
    (Commit(19), Ok(()), 0, 19),
];

#[test]
fn a_store_in_units_sees_each_lie() -> Outcome {
    assert_rows(small_in_units()?, &IN_UNITS, &[3; 19])
}

/// What `format` answers, and what `open` says of the medium that it hands back.
type Faults = (Option<FormatFault>, Option<OpenFault>);

/// Formats a medium on which this write lies.
fn format_lied(writes: u32, tear: &[u8]) -> Outcome<Faults> {
    let mut medium = SimMedium::new(Global, 160)?;
    medium.arm_lie(writes, tear);
    match Slots::format(medium, &[0]) {
        Ok(slots) => Ok((None, reopened(slots.into_medium()).err())),
        Err((fault, medium)) => Ok((Some(fault), reopened(medium).err())),
    }
}

/// It makes five writes: both gates, the data, the header, and the gate.
#[rustfmt::skip]
static FORMATS: [(u32, &[u8], Faults); 7] = [
    (0, &[0x5a], (Some(FormatFault::Failed), Some(OpenFault::NoImage))),
    (1, &[0x5a], (Some(FormatFault::Failed), Some(OpenFault::NoImage))),
    (2, &[0x5a], (Some(FormatFault::Failed), Some(OpenFault::NoImage))),
    (3, &[0x5a], (Some(FormatFault::Failed), Some(OpenFault::NoImage))),
    (4, &[0x5a], (Some(FormatFault::Failed), Some(OpenFault::NoImage))),
    (4, &[0xa5, 0x01], (Some(FormatFault::Failed), None)),
    (5, &[0x5a], (None, None)),
];

#[test]
fn format_fails_at_each_lie() -> Outcome {
    for (writes, tear, want) in &FORMATS {
        assert_eq!(format_lied(*writes, tear)?, *want);
    }
    Ok(())
}

/// An install over an open spare makes four writes. If it is Ok, or its last one leaves the gate open, the new image is active.
fn try_lie(mut slots: Slots<SimMedium>, writes: u32, tear: &[u8]) -> Outcome {
    install(&mut slots, &[0xff; 4])?;
    slots.arm_lie(writes, tear);
    let installed = install(&mut slots, &[1, 2, 3]).is_ok();
    let is_true = match writes {
        0 => tear.first() == Some(&0x00),
        1 => tear.len() == 3,
        _ => writes > 3,
    };
    assert_eq!(installed, is_true);
    let image = if installed || writes == 3 && tear.first() == Some(&0xa5) {
        &[1, 2, 3][..]
    } else {
        &[0xff; 4][..]
    };
    assert_image(&slots, image);
    assert_image(&reopened(slots.into_medium())?, image);
    Ok(())
}

#[test]
fn every_lie_of_an_install_leaves_an_image() -> Outcome {
    for writes in 0..5 {
        for tear in [&[][..], &[0x00], &[1, 2, 3], &[0xa5; 64]] {
            try_lie(formatted()?, writes, tear)?;
        }
    }
    Ok(())
}
