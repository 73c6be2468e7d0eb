// Of crates/dfu_wire/src/statuses.rt, whose contracts are taken away.

//! The answer to GETSTATUS (USB DFU 1.1, section 6.1.2).

use crate::wire::{Code, State, WireFault};
use byteorder::{ByteOrder, LittleEndian};

/// Largest number of milliseconds that fits in the three bytes of bwPollTimeout: 16,777,215.
const LONGEST_POLL: u32 = 0xff_ffff;

/// The answer to GETSTATUS, which has 6 bytes.
///
/// | Bytes | Field of the standard | Call |
/// |---|---|---|
/// | 0 | bStatus | `code` |
/// | 1 to 3, low byte first | bwPollTimeout, milliseconds | `poll_ms` |
/// | 4 | bState: the state that the device enters right after this answer | `state` |
/// | 5 | iString: ignored by the decoder, and written as 0 | |
///
/// The poll timeout of a status is always at most 16,777,215.
#[derive(Clone, Copy, Debug, PartialEq, Eq)]
pub struct Status {
    // Status code.
    code: Code,
    // Poll timeout in milliseconds.
    poll: u32,
    // State that the device enters after the answer.
    state: State,
}

impl Status {
    /// Returns the status with `code`, `poll_ms` and `state`, or the error `PollTooLong` if `poll_ms` is over 16,777,215.
    pub fn new(code: Code, poll_ms: u32, state: State) -> Result<Status, WireFault> {
        if poll_ms > LONGEST_POLL {
            return Err(WireFault::PollTooLong);
        }
        Ok(Status {
            code,
            poll: poll_ms,
            state,
        })
    }

    /// Returns the status code.
    pub fn code(&self) -> Code {
        self.code
    }

    /// Returns the time that the host must wait before it sends GETSTATUS again: 0 to 16,777,215 milliseconds.
    pub fn poll_ms(&self) -> u32 {
        self.poll
    }

    /// Returns the state that the device enters right after it has sent the status.
    pub fn state(&self) -> State {
        self.state
    }

    /// Decodes `bytes` as a status. The faults, in the order of the checks:
    ///
    /// 1. `Short`: there are fewer than 6 bytes.
    /// 2. `Long`: there are more than 6 bytes.
    /// 3. `UnknownCode`: byte 0 is over 15.
    /// 4. `UnknownState`: byte 4 is over 10.
    pub fn decode(bytes: &[u8]) -> Result<Status, WireFault> {
        if bytes.len() < 6 {
            return Err(WireFault::Short);
        }
        if bytes.len() > 6 {
            return Err(WireFault::Long);
        }
        let code = match Code::from_byte(bytes[0]) {
            Ok(code) => code,
            Err(fault) => return Err(fault),
        };
        let state = match State::from_byte(bytes[4]) {
            Ok(state) => state,
            Err(fault) => return Err(fault),
        };
        let poll = LittleEndian::read_u24(&bytes[1..]);
        Ok(Status { code, poll, state })
    }

    /// Encodes the status, with 0 for iString. `decode` of the result returns an equal status.
    pub fn encode(&self) -> [u8; 6] {
        let mut bytes = [0; 6];
        bytes[0] = self.code.byte();
        LittleEndian::write_u24(&mut bytes[1..], self.poll);
        bytes[4] = self.state.byte();
        bytes
    }
}
