// Of crates/dfuse_host/src/place.rt, whose contracts are taken away.

//! Knowledge of the device's address pointer.

/// Knowledge of the device's address pointer when the device is ready for a command.
#[derive(Clone, Copy, Debug, PartialEq, Eq)]
pub enum Place {
    /// The address in the pointer isn't known.
    Lost,
    /// The pointer was set to this address.
    At(u64),
    /// The pointer was set to this address, and the device is in dfuIDLE or dfuUPLOAD-IDLE for reading.
    Reading(u64),
}
