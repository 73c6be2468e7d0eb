//! Blocks row by row: how long one may be, which number is due, and how many bytes there is room for.

use super::Cause::Ask;
use super::named::{ADDRESS, CLEARED, DETACHED, DONE, RESET, STALLED_PKT, WRITTEN};
use super::uploads::TO_DFU_IDLE;
use super::{Row, device_on, functional, play, played};
use arrayvec::ArrayVec;
use fustrelan::device::{Answer, Config};
use fustrelan::memory::Global;
use fustrelan::slots::SimMedium;
use fustrelan::wire::{Code, State};
use unit::Outcome;
use unit::requests::{CLR_STATUS, IDS, UPLOAD};

/// A block of wTransferSize bytes with number 0 is taken.
pub const WHOLE: Row = (
    Ask([0x21, 1, 0, 0, 0, 0, 8, 0], &[7; 8]),
    Answer::Ack,
    &[],
    State::DownloadSync,
);

/// Blocks to a device with room for 10 bytes.
#[rustfmt::skip]
static BLOCKS: [Row; 34] = [
    DETACHED, RESET,
    // a block of 9 bytes is too long, whatever its number is
    (Ask([0x21, 1, 0, 0, 0, 0, 9, 0], &[7; 9]), Answer::Stall, &[], State::Error), STALLED_PKT, CLEARED,
    (Ask([0x21, 1, 1, 0, 0, 0, 9, 0], &[7; 9]), Answer::Stall, &[], State::Error), STALLED_PKT, CLEARED,
    (Ask([0x21, 1, 1, 0, 0, 0, 8, 0], &[7; 8]), Answer::Stall, &[], State::Error), ADDRESS, CLEARED,
    WHOLE, WRITTEN,
    (Ask([0x21, 1, 0, 0, 0, 0, 9, 0], &[7; 9]), Answer::Stall, &[], State::Error), STALLED_PKT, CLEARED,
    WHOLE, WRITTEN,
    (Ask([0x21, 1, 0, 0, 0, 0, 2, 0], &[7; 2]), Answer::Stall, &[], State::Error), ADDRESS, CLEARED,
    WHOLE, WRITTEN,
    // the 11th byte has no room
    (Ask([0x21, 1, 1, 0, 0, 0, 3, 0], &[8; 3]), Answer::Stall, &[], State::Error), ADDRESS, CLEARED,
    WHOLE, WRITTEN,
    // the 10th has
    (Ask([0x21, 1, 1, 0, 0, 0, 2, 0], &[8; 2]), Answer::Ack, &[], State::DownloadSync), WRITTEN,
    // and the number of the closing one is not looked at
    (Ask([0x21, 1, 9, 0, 0, 0, 0, 0], &[]), Answer::Ack, &[], State::ManifestSync),
    DONE,
    (Ask(UPLOAD, &[]), Answer::Bytes, &[7; 8], State::UploadIdle),
    (Ask([0xa1, 2, 1, 0, 0, 0, 8, 0], &[]), Answer::Bytes, &[8; 2], State::DfuIdle),
];

#[test]
fn blocks_are_taken_by_size_number_and_room() -> Outcome {
    let config = Config::new(IDS, functional(0x07), 1, 0, 0)?;
    let mut device = device_on(SimMedium::new(Global, 84)?, config, &[0])?;
    play(&mut device, &BLOCKS);
    Ok(())
}

/// A DNLOAD or an UPLOAD of one byte with any other number is an error in dfuIDLE.
#[test]
fn only_number_0_begins() -> Outcome {
    let mut device = played((0x07, 1, 0, 0), &TO_DFU_IDLE)?;
    let mut out = ArrayVec::new();
    for number in 1..=65_535_u16 {
        let [low, high] = number.to_le_bytes();
        for (kind, request, len) in [(0x21, 1, 1), (0xa1, 2, 0)] {
            let setup = [kind, request, low, high, 0, 0, 1, 0];
            let body = [0];
            let _ = device.handle(&setup, &body[..len], &mut out);
            assert_eq!(device.code(), Code::Address);
            let _ = device.handle(&CLR_STATUS, &[], &mut out);
        }
    }
    Ok(())
}
