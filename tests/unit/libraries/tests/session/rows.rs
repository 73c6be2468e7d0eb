//! The host's table, written down once more: each phase has a letter, and its row says by letters
//! what follows.

use super::dialogue::{
    ABORT, APP_IDLE, BUSY, CLEAR, DETACH, DFU_IDLE, GET_STATE, GET_STATUS, OLD_ERROR, PART_0,
    WRITTEN, asks,
};
use fustrelan::host::Seen::{Ack, Bytes, Left, Nothing, Stall, WasReset};
use fustrelan::host::{Action, Report, Seen};
use fustrelan::wire::Code;

/// Which bytes answer the action of a phase. Others are as nothing.
#[derive(Clone, Copy)]
pub enum Asks {
    Nothing,
    /// The letters say what follows a status, by the state: with OK, with errSTALLEDPKT, and with
    /// another code.
    Status,
    /// The letters say what follows an answer to GETSTATE, by the state.
    State,
    /// A part of an upload of under eight bytes leads to Last with Uploaded.
    Part,
    /// A part of a comparison that is these bytes leads to the phase of the letter, any other of at
    /// most eight bytes to Last with Different.
    Compared(u8),
}

/// The letter of a phase, what is seen on the way to it, its action, what follows an Ack, a Stall,
/// Nothing, Waited, WasReset and Left, and what follows bytes.
pub type Row = (
    u8,
    &'static [Seen<'static>],
    Action<'static>,
    &'static [u8; 6],
    Asks,
    &'static [u8],
);

/// A status by the list.
const LIST: &[u8] = b"DEBWWQWWRQC DEBWWQWWRQC DEBWWQWWRQC";
const WAIT: Action<'static> = Action::Wait(5);
const RESET: Action<'static> = Action::Reset;

/// Block 0 of nine bytes, sent by eights.
const FIRST: Action<'static> = Action::Send {
    setup: [0x21, 1, 0, 0, 0, 0, 8, 0],
    body: b"12345678",
};

const SECOND: Action<'static> = Action::Send {
    setup: [0x21, 1, 1, 0, 0, 0, 1, 0],
    body: b"9",
};

const CLOSE: Action<'static> = asks([0x21, 1, 2, 0, 0, 0, 0, 0]);

/// UPLOAD of part 1, of at most eight bytes.
const PART_1: Action<'static> = asks([0xa1, 2, 1, 0, 0, 0, 8, 0]);
const FULL: Seen<'static> = Bytes(b"12345678");

/// The next part, which is the last.
const REST: Seen<'static> = Bytes(b"9");

/// A status of dfuERROR with errADDRESS.
pub const ERROR: Seen<'static> = Bytes(&[8, 0, 0, 0, 10, 0]);

/// A status of dfuMANIFEST.
const LATE: Seen<'static> = Bytes(&[0, 5, 0, 0, 7, 0]);

/// Find, Find again, Detach, Clear, Quit, the wait before Find and the reset before it.
#[rustfmt::skip]
pub static FINDING: [Row; 7] = [
    (b'F', &[], GET_STATUS, b"FGFFFF", Asks::Status, LIST),
    (b'G', &[Stall], GET_STATUS, b"GRGGGF", Asks::Status, LIST),
    (b'D', &[APP_IDLE], DETACH, b"EFFFFF", Asks::Nothing, b""),
    (b'C', &[OLD_ERROR], CLEAR, b"FFFFFF", Asks::Nothing, b""),
    (b'Q', &[WRITTEN], ABORT, b"FFFFFF", Asks::Nothing, b""),
    (b'W', &[BUSY], WAIT, b"WWWFWF", Asks::Nothing, b""),
    (b'R', &[Stall, Stall], RESET, b"RRRRFF", Asks::Nothing, b""),
];

/// Block, Ask, Poll and its wait, of block 0 and of block 1, which is the last; Close, Ask last,
/// Trouble, and the end that is Refused.
#[rustfmt::skip]
pub static SENDING: [Row; 12] = [
    (b'B', &[DFU_IDLE], FIRST, b"PTAAAF", Asks::Nothing, b""),
    (b'A', &[DFU_IDLE, Nothing], GET_STATE, b"ATAAAF", Asks::State, b"TTBPTTTTTTT"),
    (b'P', &[DFU_IDLE, Ack], GET_STATUS, b"PTPPPF", Asks::Status, b"DEBwwbWWRQC DEBwwbWWRQC DEBwwbWWRQX"),
    (b'w', &[DFU_IDLE, Ack, BUSY], WAIT, b"wwwPwF", Asks::Nothing, b""),
    (b'b', &[DFU_IDLE, Ack, WRITTEN], SECOND, b"pTaaaF", Asks::Nothing, b""),
    (b'a', &[DFU_IDLE, Ack, WRITTEN, Nothing], GET_STATE, b"aTaaaF", Asks::State, b"TTTpTbTTTTT"),
    (b'p', &[DFU_IDLE, Ack, WRITTEN, Ack], GET_STATUS, b"pTpppF", Asks::Status, b"DEBvvLWWRQC DEBvvLWWRQC DEBvvLWWRQX"),
    (b'v', &[DFU_IDLE, Ack, WRITTEN, Ack, BUSY], WAIT, b"vvvpvF", Asks::Nothing, b""),
    (b'L', &[DFU_IDLE, Ack, WRITTEN, Ack, WRITTEN], CLOSE, b"MTKKKF", Asks::Nothing, b""),
    (b'K', &[DFU_IDLE, Ack, WRITTEN, Ack, WRITTEN, Nothing], GET_STATE, b"KTKKKF", Asks::State, b"TTTTTLMTTTT"),
    (b'T', &[DFU_IDLE, Stall], GET_STATUS, b"TGTTTF", Asks::Status, b"DEBWWQWWRQC DEBWWQWWRQC DEBWWQWWRQX"),
    (b'X', &[DFU_IDLE, Stall, ERROR], Action::Done(Report::Refused(Code::Address)), b"XXXXXX", Asks::Nothing, b""),
];

/// Of a tolerant device: Enter, Manifest and its wait, Last with Installed, that end, and the end of
/// one that left of itself.
#[rustfmt::skip]
pub static TOLERANTLY: [Row; 6] = [
    (b'E', &[APP_IDLE, Ack], RESET, b"EEEEFF", Asks::Nothing, b""),
    (b'M', &[DFU_IDLE, Ack, WRITTEN, Ack, WRITTEN, Ack], GET_STATUS, b"MTMMMu", Asks::Status, b"DEIWWQNNRQC DEBWWQNNRQC DEBWWQNNRQX"),
    (b'N', &[DFU_IDLE, Ack, WRITTEN, Ack, WRITTEN, Ack, LATE], WAIT, b"NNNMNu", Asks::Nothing, b""),
    (b'I', &[DFU_IDLE, Ack, WRITTEN, Ack, WRITTEN, Ack, DFU_IDLE], RESET, b"IIIIiu", Asks::Nothing, b""),
    (b'i', &[DFU_IDLE, Ack, WRITTEN, Ack, WRITTEN, Ack, DFU_IDLE, WasReset], Action::Done(Report::Installed), b"iiiiii",
        Asks::Nothing, b""),
    (b'u', &[DFU_IDLE, Ack, WRITTEN, Ack, WRITTEN, Ack, LATE, Left], Action::Done(Report::Unconfirmed), b"uuuuuu",
        Asks::Nothing, b""),
];

/// Of a device that detaches by itself and isn't tolerant: Enter, Manifest and its wait, Last with
/// Unconfirmed, and that end.
#[rustfmt::skip]
pub static SILENTLY: [Row; 5] = [
    (b'E', &[APP_IDLE, Ack], Action::Wait(255), b"EEEFEF", Asks::Nothing, b""),
    (b'M', &[DFU_IDLE, Ack, WRITTEN, Ack, WRITTEN, Ack], GET_STATUS, b"MTMMMu", Asks::Status, b"DEUWWQVVUQC DEUWWQVVUQC DEUWWQVVUQX"),
    (b'V', &[DFU_IDLE, Ack, WRITTEN, Ack, WRITTEN, Ack, LATE], WAIT, b"VVVUVu", Asks::Nothing, b""),
    (b'U', &[DFU_IDLE, Ack, WRITTEN, Ack, WRITTEN, Ack, DFU_IDLE], RESET, b"UUUUuu", Asks::Nothing, b""),
    (b'u', &[DFU_IDLE, Ack, WRITTEN, Ack, WRITTEN, Ack, DFU_IDLE, WasReset], Action::Done(Report::Unconfirmed), b"uuuuuu",
        Asks::Nothing, b""),
];

/// Of an upload by eights: Enter, Fetch 0 and 1, Last with Uploaded, and that end.
#[rustfmt::skip]
pub static FETCHING: [Row; 5] = [
    (b'E', &[APP_IDLE, Ack], RESET, b"EEEEFF", Asks::Nothing, b""),
    (b'B', &[DFU_IDLE], PART_0, b"FFFFFF", Asks::Part, b""),
    (b'b', &[DFU_IDLE, FULL], PART_1, b"FFFFFF", Asks::Part, b""),
    (b'Y', &[DFU_IDLE, FULL, WRITTEN], RESET, b"YYYYyF", Asks::Nothing, b""),
    (b'y', &[DFU_IDLE, FULL, WRITTEN, WasReset], Action::Done(Report::Uploaded), b"yyyyyy", Asks::Nothing, b""),
];

/// Of a comparison by eights: Enter, Compare 0 and 1, Last with Verified and with Different, and
/// those ends.
#[rustfmt::skip]
pub static COMPARING: [Row; 7] = [
    (b'E', &[APP_IDLE, Ack], RESET, b"EEEEFF", Asks::Nothing, b""),
    (b'B', &[DFU_IDLE], PART_0, b"FFFFFF", Asks::Compared(b'b'), b"12345678"),
    (b'b', &[DFU_IDLE, FULL], PART_1, b"FFFFFF", Asks::Compared(b'Y'), b"9"),
    (b'Y', &[DFU_IDLE, FULL, REST], RESET, b"YYYYyF", Asks::Nothing, b""),
    (b'y', &[DFU_IDLE, FULL, REST, WasReset], Action::Done(Report::Verified), b"yyyyyy", Asks::Nothing, b""),
    (b'Z', &[DFU_IDLE, FULL, WRITTEN], RESET, b"ZZZZzF", Asks::Nothing, b""),
    (b'z', &[DFU_IDLE, REST, WasReset], Action::Done(Report::Different), b"zzzzzz", Asks::Nothing, b""),
];
