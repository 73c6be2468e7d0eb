//! What sessions do, and what comes of it.

use fustrelan::dfuse::memory::Map;
use fustrelan::dfuse::session::{Action, Element, Limits, Plan, Seen};

/// A request without a body, as the action of a host.
pub const fn asks(setup: [u8; 8]) -> Action<'static> {
    Action::Send { setup, body: &[] }
}

/// The memory of an F4.
pub static F4: &str = "@Internal Flash  /0x08000000/04*016Kg,01*064Kg,07*128Kg";

/// Limits that are not met.
pub const AMPLE: Limits = Limits {
    actions: 1000,
    restarts: 3,
};

/// The request with a command of five bytes.
pub const COMMAND: [u8; 8] = [0x21, 1, 0, 0, 0, 0, 5, 0];
pub const ABORT: Action<'static> = asks([0x21, 6, 0, 0, 0, 0, 0, 0]);
pub const GET_STATE: Action<'static> = asks([0xa1, 5, 0, 0, 0, 0, 1, 0]);
pub const GET_STATUS: Action<'static> = asks([0xa1, 3, 0, 0, 0, 0, 6, 0]);
pub const CLEAR_STATUS: Action<'static> = asks([0x21, 4, 0, 0, 0, 0, 0, 0]);
pub const CLOSE: Action<'static> = asks([0x21, 1, 2, 0, 0, 0, 0, 0]);

/// dfuDNBUSY for 5 ms.
pub const BUSY: Seen<'static> = Seen::Bytes(&[0, 5, 0, 0, 4, 0]);
/// dfuDNLOAD-IDLE.
pub const READY: Seen<'static> = Seen::Bytes(&[0, 0, 0, 0, 5, 0]);
/// dfuMANIFEST.
pub const LEAVES: Seen<'static> = Seen::Bytes(&[0, 0, 0, 0, 7, 0]);
/// GETSTATE: dfuIDLE, dfuDNLOAD-SYNC, dfuERROR.
pub const IDLE: Seen<'static> = Seen::Bytes(&[2]);
pub const SYNC: Seen<'static> = Seen::Bytes(&[3]);
pub const ERROR: Seen<'static> = Seen::Bytes(&[10]);

/// The first page is erased.
pub const ERASE_FIRST: Action<'static> = Action::Command {
    setup: COMMAND,
    body: [0x41, 0, 0, 0, 8],
};

/// The pointer is set to its begin.
pub const POINT_FIRST: Action<'static> = Action::Command {
    setup: COMMAND,
    body: [0x21, 0, 0, 0, 8],
};

/// An image of two bytes.
pub const IMAGE: &[Element<'static>] = &[Element {
    address: 0x0800_0000,
    bytes: &[7, 8],
}];

/// They are written.
pub const DATA: Action<'static> = Action::Send {
    setup: [0x21, 1, 2, 0, 0, 0, 2, 0],
    body: &[7, 8],
};

/// Two bytes are read.
pub const READ: Action<'static> = asks([0xa1, 2, 2, 0, 0, 0, 2, 0]);

/// An action, and what comes of it.
pub type Turn = (Action<'static>, Seen<'static>);

/// What an earlier session left is dropped.
pub const CLEARED: &[Turn] = &[(ABORT, Seen::Ack), (GET_STATE, IDLE)];

/// A command that was sent is done after 5 ms.
pub const DONE: &[Turn] = &[
    (GET_STATUS, BUSY),
    (Action::Wait(5), Seen::Waited),
    (GET_STATUS, READY),
];

/// The command to erase the first page is sent, that to set the pointer, and the image's bytes.
pub const ERASING: &[Turn] = &[(ERASE_FIRST, Seen::Ack)];
pub const POINTING: &[Turn] = &[(POINT_FIRST, Seen::Ack)];
pub const WRITING: &[Turn] = &[(DATA, Seen::Ack)];

/// A command that was sent is done at once.
pub const AT_ONCE: &[Turn] = &[(GET_STATUS, READY)];

/// A session, as it was worked out by hand.
#[derive(Clone, Copy)]
pub struct Script {
    pub name: &'static str,
    pub image: &'static [Element<'static>],
    pub leaves: bool,
    pub limits: Limits,
    /// What it does, one part after the other.
    pub parts: &'static [&'static [Turn]],
    /// What it wants then.
    pub last: Action<'static>,
    /// How many actions it has taken.
    pub taken: u32,
}

/// A session that sends `IMAGE` and leaves, before its first action.
pub const USUAL: Script = Script {
    name: "",
    image: IMAGE,
    leaves: true,
    limits: AMPLE,
    parts: &[],
    last: ABORT,
    taken: 0,
};

/// A plan for an image, with blocks of 2,048 bytes and a front of 32.
pub fn plan_of<'f>(map: &'f Map<'f>, image: &'f [Element<'f>]) -> Plan<'f> {
    Plan {
        map,
        image,
        transfer: 2048,
        front: 32,
        leaves: true,
        start: 0x0800_0000,
    }
}
