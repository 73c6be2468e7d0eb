//! Uploads row by row, with bytes worked out by hand.

use super::Cause::{Ask, Reset};
use super::named::{
    ADDRESS, CLEARED, CLOSED, DETACHED, DONE, NEW, NO_UPLOAD, RESET, STALLED_PKT, TAKEN, WRITTEN,
};
use super::{BLOCK, CLOSE, FIRST, Row, device_on, functional, play};
use fustrelan::device::{Answer, Config, Device};
use fustrelan::memory::Global;
use fustrelan::slots::SimMedium;
use fustrelan::wire::State;
use unit::Outcome;
use unit::requests::{ABORT, CLR_STATUS, DETACH, GET_STATE, GET_STATUS, IDS, UPLOAD};

const IMAGE: [u8; 20] = [
    10, 11, 12, 13, 14, 15, 16, 17, 18, 19, 20, 21, 22, 23, 24, 25, 26, 27, 28, 29,
];

/// Uploads of an image of 20 bytes.
#[rustfmt::skip]
static PIECES: [Row; 17] = [
    (Ask(UPLOAD, &[]), Answer::Stall, &[], State::AppIdle),
    DETACHED,
    (Ask(UPLOAD, &[]), Answer::Stall, &[], State::AppIdle),
    DETACHED, RESET, PIECE_0,
    (Ask(GET_STATUS, &[]), Answer::Bytes, &[0, 0, 0, 0, 9, 0], State::UploadIdle),
    (Ask(GET_STATE, &[]), Answer::Bytes, &[9], State::UploadIdle),
    (Ask([0xa1, 2, 1, 0, 0, 0, 8, 0], &[]), Answer::Bytes, &[18, 19, 20, 21, 22, 23, 24, 25], State::UploadIdle),
    (Ask([0xa1, 2, 2, 0, 0, 0, 8, 0], &[]), Answer::Bytes, &[26, 27, 28, 29], State::DfuIdle),
    DONE,
    // fewer than the transfer size may be asked for, each time another count
    (Ask([0xa1, 2, 0, 0, 0, 0, 3, 0], &[]), Answer::Bytes, &[10, 11, 12], State::UploadIdle),
    (Ask([0xa1, 2, 1, 0, 0, 0, 5, 0], &[]), Answer::Bytes, &[13, 14, 15, 16, 17], State::UploadIdle),
    (Ask([0xa1, 2, 2, 0, 0, 0, 1, 0], &[]), Answer::Bytes, &[18], State::UploadIdle),
    // after an ABORT it begins anew
    (Ask(ABORT, &[]), Answer::Ack, &[], State::DfuIdle),
    (Ask([0xa1, 2, 0, 0, 0, 0, 1, 0], &[]), Answer::Bytes, &[10], State::UploadIdle),
    (Reset, Answer::Ack, &[], State::AppIdle),
];

#[test]
fn an_image_is_sent_in_pieces() -> Outcome {
    let config = Config::new(IDS, functional(0x06), 1, 5, 10)?;
    let mut device = device_on(SimMedium::new(Global, 192)?, config, &IMAGE)?;
    play(&mut device, &PIECES);
    Ok(())
}

/// The way to dfuIDLE.
pub static TO_DFU_IDLE: [Row; 2] = [DETACHED, RESET];

/// A device in dfuIDLE, without busy and manifestation times, with the image of 20 bytes.
fn idle() -> Outcome<Device<SimMedium>> {
    let config = Config::new(IDS, functional(0x07), 1, 0, 0)?;
    let mut device = device_on(SimMedium::new(Global, 192)?, config, &IMAGE)?;
    play(&mut device, &TO_DFU_IDLE);
    Ok(device)
}

/// A request that is an error, and the status after it.
type Wrong = ([u8; 8], Row);

/// After these rows from dfuIDLE each request is an error, which stays until it is cleared.
fn play_each(device: &mut Device<SimMedium>, before: &[Row], requests: &[Wrong]) {
    for (setup, status) in requests {
        play(device, before);
        let wrong: Row = (Ask(*setup, &[]), Answer::Stall, &[], State::Error);
        play(device, &[wrong, *status, NO_UPLOAD, *status, CLEARED]);
    }
}

/// UPLOADs that cannot be the first, with the status after them.
static BEGUN_WRONGLY: [Wrong; 7] = [
    ([0xa1, 2, 0, 0, 0, 0, 0, 0], STALLED_PKT),
    ([0xa1, 2, 1, 0, 0, 0, 0, 0], STALLED_PKT),
    ([0xa1, 2, 0, 0, 0, 0, 9, 0], STALLED_PKT),
    ([0xa1, 2, 1, 0, 0, 0, 255, 255], STALLED_PKT),
    ([0xa1, 2, 1, 0, 0, 0, 8, 0], ADDRESS),
    ([0xa1, 2, 0, 128, 0, 0, 8, 0], ADDRESS),
    ([0xa1, 2, 255, 255, 0, 0, 8, 0], ADDRESS),
];

/// In dfuIDLE: the length is looked at before the number.
#[test]
fn an_upload_does_not_begin_wrongly() -> Outcome {
    let mut device = idle()?;
    play_each(&mut device, &[], &BEGUN_WRONGLY);
    Ok(())
}

/// What cannot follow number 0, with the status after it.
static GONE_ON_WRONGLY: [Wrong; 9] = [
    ([0xa1, 2, 1, 0, 0, 0, 0, 0], STALLED_PKT),
    ([0xa1, 2, 0, 0, 0, 0, 9, 0], STALLED_PKT),
    ([0xa1, 2, 0, 0, 0, 0, 8, 0], ADDRESS),
    ([0xa1, 2, 2, 0, 0, 0, 8, 0], ADDRESS),
    ([0xa1, 2, 1, 128, 0, 0, 8, 0], ADDRESS),
    (DETACH, STALLED_PKT),
    (CLOSE, STALLED_PKT),
    (CLR_STATUS, STALLED_PKT),
    ([0xa1, 7, 0, 0, 0, 0, 0, 0], STALLED_PKT),
];

/// The first piece of the image.
#[rustfmt::skip]
const PIECE_0: Row = (Ask(UPLOAD, &[]), Answer::Bytes, &[10, 11, 12, 13, 14, 15, 16, 17], State::UploadIdle);

/// In dfuUPLOAD-IDLE, when number 1 is due; another request is an error too.
#[test]
fn an_upload_does_not_go_on_wrongly() -> Outcome {
    let mut device = idle()?;
    play_each(&mut device, &[PIECE_0], &GONE_ON_WRONGLY);
    Ok(())
}

/// A download within an upload, and an upload within a download.
#[rustfmt::skip]
static MIXED: [Row; 10] = [
    PIECE_0,
    // these two do not go by the table
    (Ask([0xa1, 2, 1, 0, 1, 0, 8, 0], &[]), Answer::Stall, &[], State::UploadIdle),
    (Ask([0xa1, 2, 1, 0, 0, 0, 8, 0], &[0; 8]), Answer::Stall, &[], State::UploadIdle),
    (Ask(FIRST, &BLOCK), Answer::Stall, &[], State::Error),
    STALLED_PKT, CLEARED, TAKEN, WRITTEN, NO_UPLOAD, STALLED_PKT,
];

#[test]
fn an_upload_and_a_download_do_not_mix() -> Outcome {
    let mut device = idle()?;
    play(&mut device, &MIXED);
    Ok(())
}

/// An UPLOAD is an error there, in dfuIDLE and in dfuERROR.
#[rustfmt::skip]
pub static CANNOT_UPLOAD: [Row; 7] = [
    DETACHED, RESET, NO_UPLOAD, STALLED_PKT, CLEARED,
    (Ask([0xa1, 2, 1, 0, 0, 0, 8, 0], &[]), Answer::Stall, &[], State::Error),
    STALLED_PKT,
];

/// An image of one full piece, and then a download.
#[rustfmt::skip]
static FULL_PIECE: [Row; 10] = [
    DETACHED, RESET, PIECE_0,
    (Ask([0xa1, 2, 1, 0, 0, 0, 8, 0], &[]), Answer::Bytes, &[], State::DfuIdle),
    // what was put in place by a download is sent, and fewer bytes than are asked for at once
    TAKEN, WRITTEN, CLOSED, DONE, NEW, NEW,
];

/// An upload of an image of no bytes.
#[rustfmt::skip]
static NO_BYTES: [Row; 3] = [
    DETACHED, RESET,
    (Ask(UPLOAD, &[]), Answer::Bytes, &[], State::DfuIdle),
];

#[test]
fn the_last_piece_is_a_short_one() -> Outcome {
    let config = Config::new(IDS, functional(0x07), 1, 0, 0)?;
    // an image of as many bytes as a piece has: a piece of no bytes ends it
    let mut device = device_on(SimMedium::new(Global, 192)?, config, &IMAGE[..8])?;
    play(&mut device, &FULL_PIECE);
    // an image of no bytes
    let mut empty = device_on(SimMedium::new(Global, 192)?, config, &[])?;
    play(&mut empty, &NO_BYTES);
    Ok(())
}
