// Of crates/dfu_asks/src/gates.rt, whose contracts are taken away.

//! Size of the gate of a slot, which depends on the unit and the sector of the flash.

use crate::asks::Sector;
use crate::slots::Unit;

/// Returns the number of bytes that the gate of a slot occupies in flash with this unit and sector: the largest of 16, the unit and the
/// sector. The header occupies as many.
pub(crate) fn gate_room(unit: Unit, sector: Sector) -> u32 {
    unit.size().max(16).max(sector.size())
}
