//! Calls row by row: what each answers, the end of the puts after it, and the length of the active image.

use super::{assert_image, formatted, formatted_in_units};
use Step::{Arm, Begin, Commit, Disarm, Lie, Put};
use fustrelan::slots::{PutFault, SimMedium, Slots};
use unit::Outcome;

/// A call of a store, or a fault set on its medium. A put goes to the end of the puts.
#[derive(Clone, Copy)]
pub enum Step {
    Begin,
    Put(&'static [u8]),
    Commit(u32),
    Arm(u32, &'static [u8], bool),
    Lie(u32, &'static [u8]),
    Disarm,
}

/// A step, what it answers (Ok if it answers nothing), the end of the puts after it, and the length of the active image.
pub type Row = (Step, Result<(), PutFault>, u32, u32);

#[rustfmt::skip]
static PAST_THE_CAPACITY: [Row; 4] = [
    (Begin, Ok(()), 0, 1),
    (Put(&[0xff; 65]), Err(PutFault::TooLarge), 0, 1),
    (Put(&[0xff; 64]), Ok(()), 64, 1),
    (Put(&[0xff]), Err(PutFault::TooLarge), 64, 1),
];

#[rustfmt::skip]
static STOPPED: [Row; 6] = [
    (Begin, Ok(()), 0, 1),
    (Arm(0, &[0xaa], true), Ok(()), 0, 1),
    (Put(&[0xff; 4]), Err(PutFault::Failed), 0, 1),
    (Put(&[0xff; 4]), Err(PutFault::Failed), 0, 1),
    (Disarm, Ok(()), 0, 1),
    (Put(&[0xff; 4]), Ok(()), 4, 1),
];

/// A failed commit leaves the old image, or the new one if the gate is torn open.
#[rustfmt::skip]
static TORN_GATE: [Row; 8] = [
    (Begin, Ok(()), 0, 1),
    (Put(&[0xff; 4]), Ok(()), 4, 1),
    (Arm(1, &[0x00], false), Ok(()), 4, 1),
    (Commit(4), Err(PutFault::Failed), 0, 1),
    (Begin, Ok(()), 0, 1),
    (Put(&[0xff; 4]), Ok(()), 4, 1),
    (Arm(1, &[0xa5], false), Ok(()), 4, 1),
    (Commit(4), Err(PutFault::Failed), 0, 4),
];

#[test]
fn a_store_answers_row_by_row() -> Outcome {
    for rows in [&PAST_THE_CAPACITY[..], &STOPPED[..], &TORN_GATE[..]] {
        let mut slots = formatted()?;
        play(&mut slots, rows);
    }
    Ok(())
}

#[rustfmt::skip]
static WITHOUT_BEGIN: [Row; 3] = [
    (Put(&[1; 5]), Ok(()), 5, 1),
    (Put(&[2; 60]), Err(PutFault::TooLarge), 5, 1),
    (Begin, Ok(()), 0, 1),
];

/// What was put is forgotten when a put fails, when a commit fails, and when one works.
#[rustfmt::skip]
static FORGOTTEN: [Row; 13] = [
    (Begin, Ok(()), 0, 1),
    (Put(&[1; 5]), Ok(()), 5, 1),
    (Arm(0, &[], false), Ok(()), 5, 1),
    (Put(&[2; 20]), Err(PutFault::Failed), 0, 1),
    (Put(&[1; 5]), Ok(()), 5, 1),
    (Arm(0, &[], false), Ok(()), 5, 1),
    (Commit(5), Err(PutFault::Failed), 0, 1),
    (Put(&[1; 5]), Ok(()), 5, 1),
    (Commit(5), Ok(()), 0, 5),
    (Commit(0), Err(PutFault::NotBegun), 0, 5),
    (Put(&[1; 5]), Err(PutFault::NotBegun), 0, 5),
    (Arm(0, &[], false), Ok(()), 0, 5),
    (Begin, Err(PutFault::Failed), 0, 5),
];

#[test]
fn a_store_in_units_answers_row_by_row() -> Outcome {
    for rows in [&WITHOUT_BEGIN[..], &FORGOTTEN[..]] {
        let mut slots = formatted_in_units()?;
        play(&mut slots, rows);
    }
    Ok(())
}

/// Does a step.
fn carry_out(slots: &mut Slots<SimMedium>, step: Step) -> Result<(), PutFault> {
    match step {
        Begin => slots.begin(),
        Put(bytes) => slots.put(slots.put_end(), bytes),
        Commit(len) => slots.commit(len),
        Arm(writes, tear, stop) => {
            slots.arm(writes, tear, stop);
            Ok(())
        }
        Lie(writes, tear) => {
            slots.arm_lie(writes, tear);
            Ok(())
        }
        Disarm => {
            slots.disarm();
            Ok(())
        }
    }
}

/// Does one step after the other.
pub fn play(slots: &mut Slots<SimMedium>, rows: &[Row]) {
    for (number, row) in rows.iter().enumerate() {
        let (step, wanted, end, len) = *row;
        let found = carry_out(slots, step);
        assert_eq!(
            (found, slots.put_end(), slots.active_len()),
            (wanted, end, len),
            "row {number}"
        );
    }
}

/// Three puts of an image of 64 bytes, by the lengths of the pieces, and how many bytes they come to.
#[rustfmt::skip]
static PIECES: [[&[u8]; 4]; 6] = [
    [&[0; 8], &[1; 1], &[2; 20], &[0, 0, 0, 0, 0, 0, 0, 0, 1, 2, 2, 2, 2, 2, 2, 2, 2, 2, 2, 2, 2, 2, 2, 2, 2, 2, 2, 2, 2]],
    [&[], &[3; 16], &[3; 48], &[3; 64]],
    [&[4; 15], &[5; 1], &[5; 16], &[4, 4, 4, 4, 4, 4, 4, 4, 4, 4, 4, 4, 4, 4, 4, 5, 5, 5, 5, 5, 5, 5, 5, 5, 5, 5, 5, 5, 5, 5, 5, 5]],
    [&[6; 17], &[6; 30], &[6; 17], &[6; 64]],
    [&[7], &[8], &[9], &[7, 8, 9]],
    [&[1; 40], &[], &[1; 7], &[1; 47]],
];

/// Puts three pieces, and reads the image back.
fn read_back(pieces: &[&[u8]], image: &[u8]) -> Outcome {
    let mut slots = formatted_in_units()?;
    slots.begin()?;
    for piece in pieces {
        slots.put(slots.put_end(), piece)?;
    }
    slots.commit(slots.put_end())?;
    assert_image(&slots, image);
    Ok(())
}

#[test]
fn puts_of_any_length_are_read_back() -> Outcome {
    for [first, second, third, image] in PIECES {
        read_back(&[first, second, third], image)?;
    }
    Ok(())
}
