//! The states of a device, and what each request does in them: the state table of USB DFU 1.1, appendix A, worked out by hand.

use super::Cause::{Ask, Wait};
use super::named::{
    ADDRESS, BUSY, CLEARED, CLOSED, DETACHED, DONE, MANIFEST, NEW, RESET, TAKEN, WRITTEN,
};
use super::rows::{NOT_TOLERANT, TOO_SHORT, WILLING};
use super::uploads::TO_DFU_IDLE;
use super::{BLOCK, Row, SECOND, functional};
use fustrelan::device::{Answer, Config};
use fustrelan::wire::State;
use unit::Outcome;
use unit::requests::IDS;

/// The image before a download.
pub const IMAGE: [u8; 2] = [1, 2];

/// A download with a busy and a manifestation time, and what is sent after it.
#[rustfmt::skip]
static DOWNLOAD: [Row; 11] = [
    (Ask([0x21, 0, 10, 0, 0, 0, 0, 0], &[]), Answer::Ack, &[], State::AppDetach),
    RESET, TAKEN, BUSY,
    (Wait(5), Answer::Ack, &[], State::DownloadSync),
    WRITTEN, CLOSED, MANIFEST,
    (Wait(10), Answer::Ack, &[], State::ManifestSync),
    DONE, NEW,
];

/// A download without these times.
#[rustfmt::skip]
static AT_ONCE: [Row; 7] = [
    DETACHED, RESET, TAKEN, WRITTEN, CLOSED, DONE, NEW,
];

/// An upload of the image in two pieces.
#[rustfmt::skip]
static SENDING: [Row; 4] = [
    DETACHED, RESET,
    (Ask([0xa1, 2, 0, 0, 0, 0, 1, 0], &[]), Answer::Bytes, &[1], State::UploadIdle),
    (Ask([0xa1, 2, 1, 0, 0, 0, 8, 0], &[]), Answer::Bytes, &[2], State::DfuIdle),
];

/// A block with a wrong number.
#[rustfmt::skip]
static TROUBLE: [Row; 5] = [
    DETACHED, RESET,
    (Ask(SECOND, &BLOCK), Answer::Stall, &[], State::Error),
    ADDRESS, CLEARED,
];

/// How a device comes from appIDLE to a state, and goes on.
#[derive(Clone, Copy)]
pub enum Way {
    Download,
    AtOnce,
    Willing,
    ToDfuIdle,
    TooShort,
    NotTolerant,
    Sending,
    Trouble,
}

impl Way {
    /// Its rows.
    pub fn rows(self) -> &'static [Row] {
        match self {
            Way::Download => &DOWNLOAD,
            Way::AtOnce => &AT_ONCE,
            Way::Willing => &WILLING,
            Way::ToDfuIdle => &TO_DFU_IDLE,
            Way::TooShort => &TOO_SHORT,
            Way::NotTolerant => &NOT_TOLERANT,
            Way::Sending => &SENDING,
            Way::Trouble => &TROUBLE,
        }
    }
}

/// A state of a device, and what each request does in it.
pub struct Station {
    pub name: &'static str,
    /// bmAttributes, the fewest bytes of an image, the busy time and the manifestation time.
    pub set_up: (u8, u32, u32, u32),
    /// How it comes there, by so many of the way's rows; the others are how it goes on.
    pub way: Way,
    pub steps: usize,
    /// The block number that is due.
    pub number: u8,
    /// The answers to GETSTATUS, GETSTATE and UPLOAD, if they are answered, before they are cut to wLength.
    pub status: &'static [u8],
    pub state: &'static [u8],
    pub piece: &'static [u8],
    /// The table's row for this station.
    pub cells: &'static [u8; 115],
}

impl Station {
    /// What a device is set up with for it.
    pub fn config(&self) -> Outcome<Config> {
        let (attributes, least, busy_ms, manifest_ms) = self.set_up;
        let functional = functional(attributes);
        Ok(Config::new(IDS, functional, least, busy_ms, manifest_ms)?)
    }
}

/// The table. A cell is the answer (`a` Ack, `b` Bytes, `s` Stall; in upper case if the block that was
/// downloaded is the active image then), the state after it and its code, both as hexadecimal digits.
///
/// The first cell is for what is no request of the class, or has a body that does not fit. Then come DETACH, DNLOAD,
/// UPLOAD, GETSTATUS, CLRSTATUS, GETSTATE, ABORT and another request of the class, each with wLength 0, 1 and 4,097.
/// The last four are a reset of the bus and 0, 1 and 10 ms that pass.
#[rustfmt::skip]
pub static STATIONS: [Station; 19] = [
    Station { name: "appIDLE", set_up: (0x07, 1, 5, 10), way: Way::Download, steps: 0,
        number: 0, status: &[0, 0, 0, 0, 0, 0], state: &[0], piece: &[],
        cells: b"s00 a10 s00 s00 s00 s00 s00 s00 s00 s00 b00 b00 b00 s00 s00 s00 b00 b00 b00 s00 s00 s00 s00 s00 s00 a00 a00 a00 a00" },
    Station { name: "appDETACH, timer of 10 ms", set_up: (0x07, 1, 5, 10), way: Way::Download, steps: 1,
        number: 0, status: &[0, 0, 0, 0, 1, 0], state: &[1], piece: &[],
        cells: b"s10 s00 s00 s00 s00 s00 s00 s00 s00 s00 b10 b10 b10 s00 s00 s00 b10 b10 b10 s00 s00 s00 s00 s00 s00 a20 a10 a10 a00" },
    Station { name: "appDETACH, bitWillDetach", set_up: (0x0f, 1, 5, 10), way: Way::Willing, steps: 1,
        number: 0, status: &[0, 0, 0, 0, 1, 0], state: &[1], piece: &[],
        cells: b"s10 s00 s00 s00 s00 s00 s00 s00 s00 s00 b10 b10 b10 s00 s00 s00 b10 b10 b10 s00 s00 s00 s00 s00 s00 a20 a10 a20 a20" },
    Station { name: "dfuIDLE", set_up: (0x07, 1, 5, 10), way: Way::Download, steps: 2,
        number: 0, status: &[0, 0, 0, 0, 2, 0], state: &[2], piece: &[1],
        cells: b"s20 saf saf saf saf a30 saf saf b90 saf b20 b20 b20 saf saf saf b20 b20 b20 a20 saf saf saf saf saf a00 a20 a20 a20" },
    Station { name: "dfuIDLE, neither bitCanDnload nor bitCanUpload", set_up: (0x04, 1, 5, 10), way: Way::ToDfuIdle, steps: 2,
        number: 0, status: &[0, 0, 0, 0, 2, 0], state: &[2], piece: &[],
        cells: b"s20 saf saf saf saf saf saf saf saf saf b20 b20 b20 saf saf saf b20 b20 b20 a20 saf saf saf saf saf a00 a20 a20 a20" },
    Station { name: "dfuDNLOAD-SYNC, block not written", set_up: (0x07, 1, 5, 10), way: Way::Download, steps: 3,
        number: 1, status: &[0, 5, 0, 0, 4, 0], state: &[3], piece: &[],
        cells: b"s30 saf saf saf saf saf saf saf saf saf b40 b40 b40 saf saf saf b30 b30 b30 saf saf saf saf saf saf a00 a30 a30 a30" },
    Station { name: "the same, busy time 0", set_up: (0x07, 1, 0, 0), way: Way::AtOnce, steps: 3,
        number: 1, status: &[0, 0, 0, 0, 5, 0], state: &[3], piece: &[],
        cells: b"s30 saf saf saf saf saf saf saf saf saf b50 b50 b50 saf saf saf b30 b30 b30 saf saf saf saf saf saf a00 a30 a30 a30" },
    Station { name: "dfuDNBUSY", set_up: (0x07, 1, 5, 10), way: Way::Download, steps: 4,
        number: 1, status: &[0, 0, 0, 0, 0, 0], state: &[4], piece: &[],
        cells: b"s40 saf saf saf saf saf saf saf saf saf saf saf saf saf saf saf saf saf saf saf saf saf saf saf saf a00 a40 a40 a30" },
    Station { name: "dfuDNLOAD-SYNC, block written", set_up: (0x07, 1, 5, 10), way: Way::Download, steps: 5,
        number: 1, status: &[0, 0, 0, 0, 5, 0], state: &[3], piece: &[],
        cells: b"s30 saf saf saf saf saf saf saf saf saf b50 b50 b50 saf saf saf b30 b30 b30 saf saf saf saf saf saf a00 a30 a30 a30" },
    Station { name: "dfuDNLOAD-IDLE, enough bytes taken", set_up: (0x07, 1, 5, 10), way: Way::Download, steps: 6,
        number: 1, status: &[0, 0, 0, 0, 5, 0], state: &[5], piece: &[],
        cells: b"s50 saf saf saf a60 a30 saf saf saf saf b50 b50 b50 saf saf saf b50 b50 b50 a20 saf saf saf saf saf a00 a50 a50 a50" },
    Station { name: "dfuDNLOAD-IDLE, too few", set_up: (0x07, 5, 0, 10), way: Way::TooShort, steps: 4,
        number: 1, status: &[0, 0, 0, 0, 5, 0], state: &[5], piece: &[],
        cells: b"s50 saf saf saf sa9 a30 saf saf saf saf b50 b50 b50 saf saf saf b50 b50 b50 a20 saf saf saf saf saf a00 a50 a50 a50" },
    Station { name: "dfuMANIFEST-SYNC, not complete", set_up: (0x07, 1, 5, 10), way: Way::Download, steps: 7,
        number: 0, status: &[0, 10, 0, 0, 7, 0], state: &[6], piece: &[],
        cells: b"s60 saf saf saf saf saf saf saf saf saf b70 b70 b70 saf saf saf b60 b60 b60 saf saf saf saf saf saf a00 a60 a60 a60" },
    Station { name: "the same, manifestation time 0", set_up: (0x07, 1, 0, 0), way: Way::AtOnce, steps: 5,
        number: 0, status: &[0, 0, 0, 0, 2, 0], state: &[6], piece: &[],
        cells: b"s60 saf saf saf saf saf saf saf saf saf B20 B20 B20 saf saf saf b60 b60 b60 saf saf saf saf saf saf a00 a60 a60 a60" },
    Station { name: "dfuMANIFEST", set_up: (0x07, 1, 5, 10), way: Way::Download, steps: 8,
        number: 0, status: &[0, 0, 0, 0, 0, 0], state: &[7], piece: &[],
        cells: b"s70 saf saf saf saf saf saf saf saf saf saf saf saf saf saf saf saf saf saf saf saf saf saf saf saf a00 a70 a70 A60" },
    Station { name: "dfuMANIFEST, not tolerant", set_up: (0x03, 1, 0, 10), way: Way::NotTolerant, steps: 6,
        number: 0, status: &[0, 0, 0, 0, 0, 0], state: &[7], piece: &[],
        cells: b"s70 saf saf saf saf saf saf saf saf saf saf saf saf saf saf saf saf saf saf saf saf saf saf saf saf a00 a70 a70 A80" },
    Station { name: "dfuMANIFEST-SYNC, complete", set_up: (0x07, 1, 5, 10), way: Way::Download, steps: 9,
        number: 0, status: &[0, 0, 0, 0, 2, 0], state: &[6], piece: &[],
        cells: b"S60 Saf Saf Saf Saf Saf Saf Saf Saf Saf B20 B20 B20 Saf Saf Saf B60 B60 B60 Saf Saf Saf Saf Saf Saf A00 A60 A60 A60" },
    Station { name: "dfuMANIFEST-WAIT-RESET", set_up: (0x03, 1, 0, 10), way: Way::NotTolerant, steps: 7,
        number: 0, status: &[0, 0, 0, 0, 0, 0], state: &[8], piece: &[],
        cells: b"S80 S80 S80 S80 S80 S80 S80 S80 S80 S80 S80 S80 S80 S80 S80 S80 S80 S80 S80 S80 S80 S80 S80 S80 S80 A00 A80 A80 A80" },
    Station { name: "dfuUPLOAD-IDLE", set_up: (0x07, 1, 5, 10), way: Way::Sending, steps: 3,
        number: 1, status: &[0, 0, 0, 0, 9, 0], state: &[9], piece: &[2],
        cells: b"s90 saf saf saf saf saf saf saf b90 saf b90 b90 b90 saf saf saf b90 b90 b90 a20 saf saf saf saf saf a00 a90 a90 a90" },
    Station { name: "dfuERROR, errADDRESS", set_up: (0x07, 1, 5, 10), way: Way::Trouble, steps: 3,
        number: 0, status: &[8, 0, 0, 0, 10, 0], state: &[10], piece: &[],
        cells: b"sa8 sa8 sa8 sa8 sa8 sa8 sa8 sa8 sa8 sa8 ba8 ba8 ba8 a20 sa8 sa8 ba8 ba8 ba8 sa8 sa8 sa8 sa8 sa8 sa8 a00 aa8 aa8 aa8" },
];
