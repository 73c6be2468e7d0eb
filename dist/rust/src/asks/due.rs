// Of crates/dfu_asks/src/due.rt, whose contracts are taken away.

//! The time after which the state of a device changes without a request.

use crate::asks::Asking;
use crate::device::{Config, DeviceState, poll_ms};

// Returns the milliseconds that are left until `limit`, at least 1.
fn left(limit: u32, passed: u32) -> u32 {
    limit.saturating_sub(passed).max(1)
}

/// Returns the number of milliseconds, at least 1, after which the state of a device with `config` in `mode` changes, with a block of
/// `block_len` bytes; None if no time changes it.
pub fn mode_due(config: &Config, mode: DeviceState, block_len: usize) -> Option<u32> {
    match mode {
        DeviceState::AppDetach { timer, passed } => {
            if config.functional().will_detach {
                return Some(1);
            }
            Some(left(timer, passed))
        }
        DeviceState::DownloadBusy { passed, .. } => {
            Some(left(poll_ms(config, mode, block_len), passed))
        }
        DeviceState::Manifest { passed, .. } => {
            Some(left(poll_ms(config, mode, block_len), passed))
        }
        _ => None,
    }
}

impl Asking {
    /// Returns the number of milliseconds, at least 1, after which `elapse` changes the state. Fewer milliseconds don't change it; that
    /// many or more do. In appDETACH, it is the rest of wDetachTimeOut or of the host's time, whichever is less, or 1 with bitWillDetach
    /// (USB DFU 1.1, section 5.1). In dfuDNBUSY and dfuMANIFEST, it is the rest of the time that the device told the host to wait (section
    /// 6.1.2, bwPollTimeout).
    ///
    /// None in every other state, because no time changes it.
    pub fn due(&self) -> Option<u32> {
        mode_due(&self.config, self.mode, self.block_len)
    }
}
