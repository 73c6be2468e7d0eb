// Of crates/dfu_asks/src/stalls.rt, whose contracts are taken away.

//! The calls that predict if a device will stall a setup, before the body of the setup arrives.

use crate::asks::gates::gate_room;
use crate::asks::{Asking, Refusal, Sector};
use crate::device::{Config, Decision, DeviceState, Profile, Reply, decide};
use crate::slots::Unit;
use crate::wire::{Request, Setup};

// Returns true if a decision stalls its request.
fn stalls(decision: Decision) -> bool {
    match decision {
        Decision::Sure { reply, .. }
        | Decision::Writes { reply, .. }
        | Decision::Commits { reply, .. } => matches!(reply, Reply::Stall),
        Decision::Holds { .. } | Decision::Sends { .. } => false,
    }
}

// Returns true if a device of this profile stalls this class request in this mode, with every body of the right length.
fn will_stall(profile: &Profile, mode: DeviceState, request: Request) -> bool {
    stalls(decide(profile, mode, request))
}

// Returns the number of bytes of a slot's data in flash of `size` bytes.
fn room_in(unit: Unit, sector: Sector, size: usize) -> u64 {
    (size as u64 / 2).saturating_sub(2 * u64::from(gate_room(unit, sector)))
}

/// Returns true if a device with `config` in `mode` stalls `setup`, as `Asking::would_stall` does, on a flash of `size` bytes that is
/// written in units of `unit` and erased in sectors of `sector`.
pub fn mode_stalls(
    config: &Config,
    unit: Unit,
    sector: Sector,
    mode: DeviceState,
    size: usize,
    setup: &[u8; 8],
) -> bool {
    let profile = config.profile(room_in(unit, sector, size));
    will_stall(&profile, mode, Setup::decode(setup).request())
}

impl Asking {
    /// Returns true exactly if `handle` will stall `setup` for every body of wLength bytes (USB DFU 1.1, appendix A). `size` is the number
    /// of bytes of the flash. A stack that stalls a request before its data stage must make this call first.
    ///
    /// # Errors
    ///
    /// `Asked` if writes are pending.
    pub fn would_stall(&self, size: usize, setup: &[u8; 8]) -> Result<bool, Refusal> {
        if self.work.is_some() {
            return Err(Refusal::Asked);
        }
        Ok(mode_stalls(&self.config, self.unit, self.sector, self.mode, size, setup))
    }
}
