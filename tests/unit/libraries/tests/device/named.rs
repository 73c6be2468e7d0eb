//! Rows that many tables have in common.

use super::Cause::{Ask, Reset};
use super::{BLOCK, CLOSE, FIRST, Row};
use fustrelan::device::Answer;
use fustrelan::wire::State;
use unit::requests::{CLR_STATUS, DETACH, GET_STATUS, UPLOAD};

/// The way to dfuIDLE: a DETACH, and a reset of the bus.
pub const DETACHED: Row = (Ask(DETACH, &[]), Answer::Ack, &[], State::AppDetach);
pub const RESET: Row = (Reset, Answer::Ack, &[], State::DfuIdle);

/// The block is taken; the time to write it begins, or it is written at once.
pub const TAKEN: Row = (Ask(FIRST, &BLOCK), Answer::Ack, &[], State::DownloadSync);
#[rustfmt::skip]
pub const BUSY: Row = (Ask(GET_STATUS, &[]), Answer::Bytes, &[0, 5, 0, 0, 4, 0], State::DownloadBusy);
#[rustfmt::skip]
pub const WRITTEN: Row = (Ask(GET_STATUS, &[]), Answer::Bytes, &[0, 0, 0, 0, 5, 0], State::DownloadIdle);

/// The download is closed; the manifestation time begins, or the image is in place at once.
pub const CLOSED: Row = (Ask(CLOSE, &[]), Answer::Ack, &[], State::ManifestSync);
#[rustfmt::skip]
pub const MANIFEST: Row = (Ask(GET_STATUS, &[]), Answer::Bytes, &[0, 10, 0, 0, 7, 0], State::Manifest);
#[rustfmt::skip]
pub const DONE: Row = (Ask(GET_STATUS, &[]), Answer::Bytes, &[0, 0, 0, 0, 2, 0], State::DfuIdle);

/// The block is the image.
pub const NEW: Row = (Ask(UPLOAD, &[]), Answer::Bytes, &BLOCK, State::DfuIdle);

/// An UPLOAD is an error.
pub const NO_UPLOAD: Row = (Ask(UPLOAD, &[]), Answer::Stall, &[], State::Error);

/// The code is errWRITE, errPROG, errVERIFY, errADDRESS or errSTALLEDPKT.
#[rustfmt::skip]
pub const WRITE: Row = (Ask(GET_STATUS, &[]), Answer::Bytes, &[3, 0, 0, 0, 10, 0], State::Error);
#[rustfmt::skip]
pub const PROG: Row = (Ask(GET_STATUS, &[]), Answer::Bytes, &[6, 0, 0, 0, 10, 0], State::Error);
#[rustfmt::skip]
pub const VERIFY: Row = (Ask(GET_STATUS, &[]), Answer::Bytes, &[7, 0, 0, 0, 10, 0], State::Error);
#[rustfmt::skip]
pub const ADDRESS: Row = (Ask(GET_STATUS, &[]), Answer::Bytes, &[8, 0, 0, 0, 10, 0], State::Error);
#[rustfmt::skip]
pub const STALLED_PKT: Row = (Ask(GET_STATUS, &[]), Answer::Bytes, &[15, 0, 0, 0, 10, 0], State::Error);

/// CLRSTATUS leads back to dfuIDLE.
pub const CLEARED: Row = (Ask(CLR_STATUS, &[]), Answer::Ack, &[], State::DfuIdle);
