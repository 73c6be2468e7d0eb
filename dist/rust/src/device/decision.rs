// Of crates/dfu_device/src/decision.rt, whose contracts are taken away.

//! Decision of a row of the device table: what the device does, and its answer.

use crate::device::device_state::DeviceState;

/// Answer of a decision. A status or a state is that of the device after the row.
#[derive(Clone, Copy, Debug, PartialEq, Eq)]
pub enum Reply {
    Ack,
    /// Answers GETSTATUS with the status.
    Status,
    /// Answers GETSTATE with the state.
    State,
    Stall,
}

/// Decision of a row of the device table. Only the outcome of a write is still open: if a write fails, the device enters dfuERROR instead
/// of the mode given here, and a status in its answer reports dfuERROR.
#[derive(Clone, Copy, Debug, PartialEq, Eq)]
pub enum Decision {
    /// The device enters a mode, and doesn't call the slot store.
    Sure {
        /// Answer of the device.
        reply: Reply,
        /// Mode that the device enters.
        mode: DeviceState,
    },
    /// The device keeps the body of the request as its block, to be written later, enters `mode`, and acknowledges the request.
    Holds {
        /// Mode that the device enters.
        mode: DeviceState,
    },
    /// The device sends the next bytes of the active image. If they are fewer than `size`, they are the last bytes and the device enters
    /// dfuIDLE, otherwise dfuUPLOAD-IDLE.
    Sends {
        /// Number of bytes of the image that were sent before.
        place: u32,
        /// wLength of the request, 1 or more.
        size: u16,
        /// Number of the next block.
        number: u16,
    },
    /// The device writes the block. It then enters dfuDNLOAD-IDLE, or dfuDNLOAD-SYNC if `late` is true.
    Writes {
        /// Answer of the device.
        reply: Reply,
        /// Number of bytes written before the block.
        written: u32,
        /// Number of the next block.
        number: u16,
        /// True if the busy time ended, so that the host must request the status once more.
        late: bool,
    },
    /// The device makes the received bytes the active image, and enters a mode.
    Commits {
        /// Answer of the device.
        reply: Reply,
        /// Number of bytes received.
        written: u32,
        /// Mode that the device enters.
        mode: DeviceState,
    },
}
