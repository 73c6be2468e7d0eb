//! The device, the actions and the answers of which dialogues are made.

use fustrelan::host::{Action, Limits, Report, Seen};
use fustrelan::wire::{Functional, Ids};

/// A request without a body, as the action of a host.
pub const fn asks(setup: [u8; 8]) -> Action<'static> {
    Action::Send { setup, body: &[] }
}

/// The device that is to be flashed.
pub const DEVICE: Ids = Ids {
    device: 0x0100,
    product: 0x0001,
    vendor: 0x1209,
};

/// One that is tolerant of manifestation, and waits for a reset of the bus after DETACH.
pub static TOLERANT: Functional = Functional {
    can_download: true,
    can_upload: true,
    tolerant: true,
    will_detach: false,
    detach_ms: 255,
    transfer: 8,
    version: 0x0110,
};

/// One that is not, and detaches by itself.
pub static SILENT: Functional = Functional {
    can_download: true,
    can_upload: true,
    tolerant: false,
    will_detach: true,
    detach_ms: 255,
    transfer: 8,
    version: 0x0110,
};

/// The descriptor of a tolerant device that differs from it in these.
pub fn descriptor(can_download: bool, can_upload: bool, transfer: u16) -> Functional {
    Functional {
        can_download,
        can_upload,
        transfer,
        ..TOLERANT
    }
}

/// Limits that are not met.
pub const AMPLE: Limits = Limits {
    actions: 1_000_000,
    restarts: 0,
};

/// The most actions, and the most restarts.
pub fn limits(actions: u32, restarts: u16) -> Limits {
    Limits { actions, restarts }
}

pub const GET_STATUS: Action<'static> = asks([0xa1, 3, 0, 0, 0, 0, 6, 0]);
pub const GET_STATE: Action<'static> = asks([0xa1, 5, 0, 0, 0, 0, 1, 0]);
pub const DETACH: Action<'static> = asks([0x21, 0, 0xff, 0, 0, 0, 0, 0]);
pub const BLOCK: Action<'static> = Action::Send {
    setup: [0x21, 1, 0, 0, 0, 0, 4, 0],
    body: &[0xff, 0xff, 0xff, 0xff],
};

pub const CLOSE: Action<'static> = asks([0x21, 1, 1, 0, 0, 0, 0, 0]);
pub const ABORT: Action<'static> = asks([0x21, 6, 0, 0, 0, 0, 0, 0]);
pub const CLEAR: Action<'static> = asks([0x21, 4, 0, 0, 0, 0, 0, 0]);

/// UPLOAD of a part with this number, of at most so many bytes.
pub fn fetch(number: u16, length: u16) -> Action<'static> {
    let [number_low, number_high] = number.to_le_bytes();
    let [length_low, length_high] = length.to_le_bytes();
    #[rustfmt::skip]
    let setup = [0xa1, 2, number_low, number_high, 0, 0, length_low, length_high];
    asks(setup)
}

/// UPLOAD of part 0, of at most 8 bytes.
pub const PART_0: Action<'static> = asks([0xa1, 2, 0, 0, 0, 0, 8, 0]);
pub const VERIFIED: Action<'static> = Action::Done(Report::Verified);
pub const APP_IDLE: Seen<'static> = Seen::Bytes(&[0, 0, 0, 0, 0, 0]);
pub const DFU_IDLE: Seen<'static> = Seen::Bytes(&[0, 0, 0, 0, 2, 0]);
pub const BUSY: Seen<'static> = Seen::Bytes(&[0, 5, 0, 0, 4, 0]);
pub const WRITTEN: Seen<'static> = Seen::Bytes(&[0, 0, 0, 0, 5, 0]);
pub const MANIFEST: Seen<'static> = Seen::Bytes(&[0, 10, 0, 0, 7, 0]);
pub const OLD_ERROR: Seen<'static> = Seen::Bytes(&[15, 0, 0, 0, 10, 0]);

/// The part that is the image of one block.
pub const ONES: Seen<'static> = Seen::Bytes(&[0xff, 0xff, 0xff, 0xff]);

/// What is seen of a download of two blocks that is verified, up to its last reset.
pub static INSTALLED: [Seen<'static>; 8] = [
    DFU_IDLE,
    Seen::Ack,
    WRITTEN,
    Seen::Ack,
    WRITTEN,
    Seen::Ack,
    DFU_IDLE,
    Seen::WasReset,
];
