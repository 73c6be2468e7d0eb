// Of crates/dfu_asks/src/long.rt, whose contracts are taken away.

//! Setups whose body is longer than the transfer size.

use crate::asks::{Asking, Refusal};
use crate::device::{Config, DeviceState};
use crate::wire::{Code, Setup};

// Returns the mode of a device in `mode` after a setup whose body is longer than the transfer size.
fn after_long(mode: DeviceState) -> DeviceState {
    match mode {
        DeviceState::AppIdle | DeviceState::AppDetach { .. } => DeviceState::AppIdle,
        DeviceState::ManifestWaitReset => DeviceState::ManifestWaitReset,
        DeviceState::Error { code } => DeviceState::Error { code },
        _ => DeviceState::Error {
            code: Code::StalledPkt,
        },
    }
}

// Returns true if the setup announces more bytes from the host than the transfer size.
fn is_long(setup: &Setup, transfer: u16) -> bool {
    setup.kind == 0x21 && setup.length > transfer
}

/// Returns the mode to which `setup` leads a device with `config` in `mode`, if the host sends more bytes with it than the transfer size,
/// as `Asking::too_long` does; None exactly if the host sends no more.
pub fn mode_after_long(config: &Config, mode: DeviceState, setup: &[u8; 8]) -> Option<DeviceState> {
    let setup = Setup::decode(setup);
    if !is_long(&setup, config.functional().transfer) {
        return None;
    }
    if setup.index == 0 {
        Some(after_long(mode))
    } else {
        Some(mode)
    }
}

impl Asking {
    /// Handles `setup`, as `handle` does, if its body is longer than the transfer size, so that no memory must hold the body. Returns true
    /// if the body is longer; the caller must then stall the request (USB DFU 1.1, section 6.1.1). Returns false if it is not; nothing
    /// changes then. The call needs neither the flash nor the memory of the block.
    ///
    /// # Errors
    ///
    /// `Asked` if writes are pending; nothing changes then.
    pub fn too_long(&mut self, setup: &[u8; 8]) -> Result<bool, Refusal> {
        if self.work.is_some() {
            return Err(Refusal::Asked);
        }
        match mode_after_long(&self.config, self.mode, setup) {
            Some(after) => {
                self.mode = after;
                Ok(true)
            }
            None => Ok(false),
        }
    }
}
