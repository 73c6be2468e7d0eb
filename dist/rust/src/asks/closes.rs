// Of crates/dfu_asks/src/closes.rt, whose contracts are taken away.

//! The calls that predict if a setup will close a download, so that the program can check the image first.

use crate::asks::{Asking, Refusal};
use crate::device::{Config, DeviceState, is_close};

/// Returns true if `setup` closes the download of a device with `config` in `mode`, as `Asking::closes` does.
pub fn mode_closes(config: &Config, mode: DeviceState, setup: &[u8; 8]) -> bool {
    if !mode.may_close(config.least()) {
        return false;
    }
    is_close(setup)
}

impl Asking {
    /// Returns true if `setup` closes a download: a DNLOAD with wLength 0 in dfuDNLOAD-IDLE, once at least as many bytes are downloaded as
    /// the shortest allowed image has (USB DFU 1.1, section 6.1.1.1).
    ///
    /// If true, `handle` would acknowledge the setup, and the image of all downloaded bytes would be pending. A program that checks images
    /// must check this one now, and can call `refuse_close` to refuse it. If false, `handle` would close no download.
    ///
    /// # Errors
    ///
    /// `Asked` if writes are pending.
    pub fn closes(&self, setup: &[u8; 8]) -> Result<bool, Refusal> {
        if self.work.is_some() {
            return Err(Refusal::Asked);
        }
        Ok(mode_closes(&self.config, self.mode, setup))
    }
}
