//! Writes that lie: the medium answers that they worked, and has other bytes.

use super::Cause::{Ask, Wait};
use super::blocks::WHOLE;
use super::named::{
    BUSY, CLEARED, CLOSED, DONE, MANIFEST, NEW, PROG, TAKEN, VERIFY, WRITE, WRITTEN,
};
use super::restart::restarted;
use super::uploads::TO_DFU_IDLE;
use super::{Row, device_on, functional, play, played};
use fustrelan::device::{Answer, Config};
use fustrelan::memory::Global;
use fustrelan::slots::{SimMedium, Unit};
use fustrelan::wire::State;
use unit::Outcome;
use unit::requests::{IDS, UPLOAD};

/// The image is the one before.
const OLD: Row = (Ask(UPLOAD, &[]), Answer::Bytes, &[0], State::DfuIdle);

/// The block's write lies, and the download after it is installed.
static BLOCK_LIES: [Row; 10] = [
    TAKEN, VERIFY, VERIFY, CLEARED, OLD, TAKEN, WRITTEN, CLOSED, DONE, NEW,
];

/// The write lies that closes the other slot's gate before the first block.
static BEGIN_LIES: [Row; 4] = [TAKEN, VERIFY, CLEARED, NEW];

#[test]
fn a_block_whose_write_lies_is_told_as_errverify() -> Outcome {
    let mut device = played((0x07, 1, 0, 0), &TO_DFU_IDLE)?;
    device.arm_lie(0, &[0xaa]);
    play(&mut device, &BLOCK_LIES);
    device.arm_lie(0, &[0xa5]);
    play(&mut device, &BEGIN_LIES);
    Ok(())
}

/// In units of 16 the first block of 8 bytes is held back, and the second one is written with it.
#[rustfmt::skip]
static UNIT_LIES: [Row; 6] = [
    WHOLE, WRITTEN,
    (Ask([0x21, 1, 1, 0, 0, 0, 8, 0], &[7; 8]), Answer::Ack, &[], State::DownloadSync), VERIFY, CLEARED, OLD,
];

#[test]
fn the_block_that_fills_a_unit_tells_that_it_lies() -> Outcome {
    let config = Config::new(IDS, functional(0x07), 1, 0, 0)?;
    let mut device = device_on(SimMedium::with_unit(Global, 192, Unit::U16)?, config, &[0])?;
    play(&mut device, &TO_DFU_IDLE);
    device.arm_lie(0, &[0xaa]);
    play(&mut device, &UNIT_LIES);
    Ok(())
}

/// The time of a block, or of an image, has passed, and a write has a fault.
const BLOCK_TIME: Row = (Wait(5), Answer::Ack, &[], State::Error);
const IMAGE_TIME: Row = (Wait(10), Answer::Ack, &[], State::Error);

/// The block's write lies as its time has passed, and the next block is written.
#[rustfmt::skip]
static LATE_BLOCK: [Row; 11] = [
    TAKEN, BUSY, BLOCK_TIME, VERIFY, CLEARED, OLD,
    TAKEN, BUSY, (Wait(5), Answer::Ack, &[], State::DownloadSync), WRITTEN, CLOSED,
];

/// The gate's write lies and opens the gate as the image's time has passed: the new image is active.
static LATE_IMAGE: [Row; 5] = [MANIFEST, IMAGE_TIME, VERIFY, CLEARED, NEW];

#[test]
fn a_lie_in_time_is_told_by_the_next_status() -> Outcome {
    let mut device = played((0x07, 1, 5, 10), &TO_DFU_IDLE)?;
    device.arm_lie(0, &[0xaa]);
    play(&mut device, &LATE_BLOCK);
    device.arm_lie(1, &[0xa5, 0x01]);
    play(&mut device, &LATE_IMAGE);
    Ok(())
}

/// The block's write lies.
static LIED: [Row; 5] = [TAKEN, BUSY, BLOCK_TIME, VERIFY, CLEARED];

/// The block's write fails, and the next block is written.
#[rustfmt::skip]
static FAILED: [Row; 10] = [
    TAKEN, BUSY, BLOCK_TIME, WRITE, CLEARED,
    TAKEN, BUSY, (Wait(5), Answer::Ack, &[], State::DownloadSync), WRITTEN, CLOSED,
];

/// The gate's write fails and opens the gate: the new image is active.
static FAILED_IMAGE: [Row; 5] = [MANIFEST, IMAGE_TIME, PROG, CLEARED, NEW];

#[test]
fn the_last_arming_counts() -> Outcome {
    let mut device = played((0x07, 1, 5, 10), &TO_DFU_IDLE)?;
    device.arm(0, &[0xaa], true);
    device.arm_lie(0, &[0xaa]);
    play(&mut device, &LIED);
    device.arm_lie(0, &[0xaa]);
    device.arm(0, &[0xaa], false);
    play(&mut device, &FAILED);
    device.arm_lie(0, &[0xaa]);
    device.arm(1, &[0xa5, 0x01], false);
    play(&mut device, &FAILED_IMAGE);
    Ok(())
}

/// How many writes of a commit work before one lies, with which tear, the rows that report it, and the image after them.
type Lie = (u32, &'static [u8], &'static [Row], Row);

/// Of the header and of the gate, in bytes. The gate's other bytes are zeros before, so that only A5h is no lie.
#[rustfmt::skip]
static IN_BYTES: [Lie; 4] = [
    (0, &[0xaa], &[VERIFY, CLEARED], OLD),
    (1, &[0xaa], &[VERIFY, CLEARED], OLD),
    (1, &[0xa5, 0x01], &[VERIFY, CLEARED], NEW),
    (1, &[0xa5], &[DONE], NEW),
];

/// In units of 16, when the bytes held back are written before them.
#[rustfmt::skip]
static IN_UNITS: [Lie; 4] = [
    (0, &[0xaa], &[VERIFY, CLEARED], OLD),
    (1, &[0xaa], &[VERIFY, CLEARED], OLD),
    (2, &[0xa5, 0x01], &[VERIFY, CLEARED], NEW),
    (2, &[0xa5], &[DONE], NEW),
];

/// A block and the close.
static UP_TO_THE_CLOSE: [Row; 3] = [TAKEN, WRITTEN, CLOSED];

/// A write of a commit lies; the image is the same after power that goes and comes back.
fn try_lie(medium: SimMedium, lie: &Lie) -> Outcome {
    let (writes, tear, told, image) = *lie;
    let config = Config::new(IDS, functional(0x07), 1, 0, 0)?;
    let mut device = device_on(medium, config, &[0])?;
    play(&mut device, &TO_DFU_IDLE);
    play(&mut device, &UP_TO_THE_CLOSE);
    device.arm_lie(writes, tear);
    play(&mut device, told);
    play(&mut device, &[image]);
    let mut device = restarted(device);
    play(&mut device, &TO_DFU_IDLE);
    play(&mut device, &[image]);
    Ok(())
}

#[test]
fn a_commit_of_which_a_write_lies_is_told_as_errverify() -> Outcome {
    for lie in &IN_BYTES {
        try_lie(SimMedium::new(Global, 192)?, lie)?;
    }
    Ok(())
}

#[test]
fn a_lie_of_a_commit_in_units_is_told_as_errverify() -> Outcome {
    for lie in &IN_UNITS {
        try_lie(SimMedium::with_unit(Global, 192, Unit::U16)?, lie)?;
    }
    Ok(())
}
