// Of crates/dfu_asks/src/refuse.rt, whose contracts are taken away.

//! The calls by which the program of a device refuses an image.

use crate::asks::closes::mode_closes;
use crate::asks::{Asking, Refusal};
use crate::device::{DeviceState, Objection};

impl Asking {
    /// Refuses the image whose download `setup` would close, because of the program's `objection`, as `Device::refuse_close` does. Returns
    /// true if the setup closes a download, and then the caller must stall the request. The call needs neither the flash nor the memory of
    /// the block.
    ///
    /// # Errors
    ///
    /// `Asked` if writes are pending; nothing changes then.
    pub fn refuse_close(&mut self, setup: &[u8; 8], objection: Objection) -> Result<bool, Refusal> {
        if self.work.is_some() {
            return Err(Refusal::Asked);
        }
        if !mode_closes(&self.config, self.mode, setup) {
            return Ok(false);
        }
        self.mode = DeviceState::after_refused_close(objection);
        Ok(true)
    }

    /// Refuses the image whose download was closed, because of the program's `objection`, as `Device::refuse` does. The call needs neither
    /// the flash nor the memory of the block.
    ///
    /// # Errors
    ///
    /// `Asked` if writes are pending; nothing changes then.
    pub fn refuse(&mut self, objection: Objection) -> Result<(), Refusal> {
        if self.work.is_some() {
            return Err(Refusal::Asked);
        }
        self.mode = self.mode.after_refusal(objection);
        Ok(())
    }
}
