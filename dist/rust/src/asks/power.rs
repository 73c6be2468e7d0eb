// Of crates/dfu_asks/src/power.rt, whose contracts are taken away.

//! The calls that power a device on.

use crate::asks::{Asking, Noted, Sector};
use crate::device::{Config, DeviceState};
use crate::slots::Unit;

impl Asking {
    /// Returns a device after power-on: in appIDLE, with no block, on `flash`. The call reads the images to find the active one. The flash
    /// is written in units of `unit`: after an erase of its sectors `sector`, or in place if there are none.
    ///
    /// None exactly if the flash has no active image, or 2^32 bytes or more.
    pub fn power_on(config: Config, unit: Unit, sector: Sector, flash: &[u8]) -> Option<Asking> {
        let noted = Noted::find(flash, unit, sector)?;
        Some(Asking {
            config,
            unit,
            sector,
            mode: DeviceState::AppIdle,
            block_len: 0,
            held_len: 0,
            put_end: 0,
            noted,
            work: None,
        })
    }

    /// Returns a device that begins in dfuIDLE, as if after `power_on`, a DETACH and a reset of the bus (USB DFU 1.1, section 5.1). A
    /// bootloader that was entered to receive a download must start this way.
    ///
    /// None exactly if the flash has no active image, or 2^32 bytes or more.
    pub fn begin(config: Config, unit: Unit, sector: Sector, flash: &[u8]) -> Option<Asking> {
        let mut device = Asking::power_on(config, unit, sector, flash)?;
        device.mode = DeviceState::DfuIdle;
        Some(device)
    }
}
