// Of crates/dfu_asks/src/calls.rt, whose contracts are taken away.

//! The calls of a device that requests its flash writes from the caller.

use crate::asks::noted::{View, look};
use crate::asks::{Asking, Mapped, Refusal, Reply};
use crate::device::{asked_row, decide_time};
use crate::wire::{Code, State};

/// Returns `setup` rewritten for a device whose interface has number `interface` (bInterfaceNumber). wIndex of the result is 0 if wIndex of
/// `setup` is `interface` (USB DFU 1.1, section 3). Otherwise it isn't 0, so that the device stalls the request and its state is unchanged.
/// A program whose interface is not number 0 must pass each setup through this call before it passes the setup to `handle`, `closes`,
/// `would_stall`, `too_long` or `refuse_close`.
pub fn addressed(interface: u8, setup: &[u8; 8]) -> [u8; 8] {
    let mut own = *setup;
    own[4] = u8::from(setup[4] != interface);
    own
}

impl Asking {
    /// Returns the device's state, as the standard names it (USB DFU 1.1, section 6.1.2, bState).
    pub fn state(&self) -> State {
        self.mode.state()
    }

    /// Returns the device's status code (USB DFU 1.1, section 6.1.2, bStatus).
    pub fn code(&self) -> Code {
        self.mode.code()
    }

    // Returns the flash as a medium, and the view of this medium, if the kept fields can be those of a device on this flash.
    fn see<'f>(&self, room: usize, flash: &'f [u8]) -> Result<(Mapped<'f>, View), Refusal> {
        let Some(medium) = Mapped::with_sector(flash, self.unit, self.sector) else {
            return Err(Refusal::NoMedium);
        };
        let Some(view) = look(&medium, &self.noted) else {
            return Err(Refusal::NoMedium);
        };
        if !self.kept_fields_fit(room, &medium, &view) {
            return Err(Refusal::NoDevice);
        }
        Ok((medium, view))
    }

    // Answers a setup and its body as `asked_row` decides. If flash must be written for this, returns `Asks` to request the first write.
    fn respond(
        &mut self,
        block: &mut [u8],
        held: &mut [u8],
        medium: &Mapped<'_>,
        view: &View,
        setup: &[u8; 8],
        body: &[u8],
        out: &mut [u8],
    ) -> Reply {
        let profile = self.config.profile(u64::from(view.room));
        let (decision, asked) = asked_row(&profile, self.mode, setup, body);
        self.carry_out(decision, Some(asked), body, block, held, medium, view, out)
    }

    /// Answers `setup` and its `body` as `Device::handle` does. If flash must be written for this, returns `Asks` to request the first
    /// write instead.
    ///
    /// # Errors
    ///
    /// `Asked` if writes are pending; `NoRoom` if `out` has less room than an answer may need, which is 6 bytes or the transfer size,
    /// whichever is more; `NoMedium` if the noted slot of the flash is not open or doesn't have the noted header; `NoDevice` if the kept
    /// state is not a device on the flash, or `block` has less room than the transfer size. They are checked in this order, and nothing
    /// changes if one is returned.
    pub fn handle(
        &mut self,
        block: &mut [u8],
        held: &mut [u8],
        flash: &[u8],
        setup: &[u8; 8],
        body: &[u8],
        out: &mut [u8],
    ) -> Result<Reply, Refusal> {
        if self.work.is_some() {
            return Err(Refusal::Asked);
        }
        if out.len() < usize::from(self.config.functional().transfer).max(6) {
            return Err(Refusal::NoRoom);
        }
        let (medium, view) = self.see(block.len(), flash)?;
        Ok(self.respond(block, held, &medium, &view, setup, body, out))
    }

    /// Lets `ms` milliseconds elapse, as `Device::elapse` does. If flash must be written for this, returns `Asks` to request the first
    /// write instead.
    ///
    /// # Errors
    ///
    /// The errors of `handle`, except `NoRoom`.
    ///
    /// # What the caller must keep to
    ///
    /// - `held` has room for the bytes of a unit.
    pub fn elapse(
        &mut self,
        block: &mut [u8],
        held: &mut [u8],
        flash: &[u8],
        ms: u32,
    ) -> Result<Reply, Refusal> {
        debug_assert!(self.unit.size() as usize <= held.len());
        if self.work.is_some() {
            return Err(Refusal::Asked);
        }
        let (medium, view) = self.see(block.len(), flash)?;
        let profile = self.config.profile(u64::from(view.room));
        let decision = decide_time(&profile, self.mode, self.block_len, ms);
        let mut out = [0; 6];
        Ok(self.carry_out(decision, None, &[], block, held, &medium, &view, &mut out))
    }

    /// Handles a reset of the bus, as `Device::usb_reset` does.
    ///
    /// # Errors
    ///
    /// The errors of `elapse`.
    ///
    /// # What the caller must keep to
    ///
    /// - `held` has room for the bytes of a unit.
    pub fn usb_reset(&mut self, block: &[u8], held: &[u8], flash: &[u8]) -> Result<(), Refusal> {
        debug_assert!(self.unit.size() as usize <= held.len());
        if self.work.is_some() {
            return Err(Refusal::Asked);
        }
        let _ = self.see(block.len(), flash)?;
        self.mode = self.mode.after_reset();
        Ok(())
    }
}
