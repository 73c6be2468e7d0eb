//! What a judge says about devices that were worked out by hand, about wrong ones, and about this repository's device.

mod captures;
mod cells;
mod dfuse;
mod lines;
mod runs;
mod verdicts;
mod walker;
mod ways;
mod wrong_rows;

use fustrelan::conformance::{EventKind, LogEvent, Response, StandardState};
use fustrelan::wire::Setup;

/// GETSTATUS as section 3 has it.
pub const GET_STATUS: [u8; 8] = [0xa1, 3, 0, 0, 0, 0, 6, 0];

/// GETSTATE as section 3 has it.
pub const GET_STATE: [u8; 8] = [0xa1, 5, 0, 0, 0, 0, 1, 0];

/// One request of each kind, in the order of the cells: DETACH, DNLOAD, DNLOAD of no bytes, UPLOAD, GETSTATUS, CLRSTATUS, GETSTATE,
/// ABORT, and one that is not a request of DFU.
pub static REQUESTS: [[u8; 8]; 9] = [
    [0x21, 0, 10, 0, 0, 0, 0, 0],
    [0x21, 1, 0, 0, 0, 0, 4, 0],
    [0x21, 1, 1, 0, 0, 0, 0, 0],
    [0xa1, 2, 0, 0, 0, 0, 8, 0],
    GET_STATUS,
    [0x21, 4, 0, 0, 0, 0, 0, 0],
    GET_STATE,
    [0x21, 6, 0, 0, 0, 0, 0, 0],
    [0x21, 9, 0, 0, 0, 0, 0, 0],
];

/// An acknowledgement, or no bytes.
pub const ACK: Response = Response::Bytes {
    count: 0,
    first: 0,
    fifth: 0,
};

/// A reset of the bus.
pub const RESET: LogEvent = LogEvent {
    asked: EventKind::Reset,
    is_plain: true,
    length: 0,
    answer: ACK,
};

/// Power that comes back.
pub const POWER: LogEvent = LogEvent {
    asked: EventKind::Power,
    is_plain: true,
    length: 0,
    answer: ACK,
};

/// An answer with these bytes, as a log has it.
pub fn bytes(out: &[u8]) -> Response {
    let count = if out.len() < 70_000 {
        out.len() as u32
    } else {
        70_000
    };
    Response::Bytes {
        count,
        first: match out.first() {
            Some(byte) => *byte,
            None => 0,
        },
        fifth: match out.get(4) {
            Some(byte) => *byte,
            None => 0,
        },
    }
}

/// A status with this code and this state.
pub fn status(code: u8, state: u8) -> Response {
    Response::Bytes {
        count: 6,
        first: code,
        fifth: state,
    }
}

/// A state.
pub fn state(state: u8) -> Response {
    Response::Bytes {
        count: 1,
        first: state,
        fifth: 0,
    }
}

/// A request with a whole body and its answer.
pub fn asked(bytes: &[u8; 8], answer: Response) -> Option<LogEvent> {
    let setup = Setup::decode(bytes);
    let body = if setup.kind == 0x21 {
        setup.length as usize
    } else {
        0
    };
    LogEvent::exchange(&setup, body, answer)
}

/// For each place, whether it is one of these.
pub fn at(places: &[StandardState]) -> [bool; 12] {
    let mut at = [false; 12];
    for place in places {
        if let Some(slot) = at.get_mut(place.number()) {
            *slot = true;
        }
    }
    at
}
