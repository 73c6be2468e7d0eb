//! NOR flash in memory: a program only clears bits, and each unit is programmed once between two erases.

use dfu::callers::{ChipFault, Flash};
use fustrelan::slots::Unit;

/// Two slots with a sector of 256 bytes each for gate, header and data, programmed in units of 16.
pub(crate) struct SimulatedNor {
    bytes: [u8; 1536],
    /// How many units were programmed that were not erased.
    pub(crate) twice: u32,
    /// How many sectors were erased.
    pub(crate) erases: u32,
}

impl SimulatedNor {
    // Not formatted yet: its bytes may be anything.
    pub(crate) fn new() -> SimulatedNor {
        SimulatedNor {
            bytes: [0x5a; 1536],
            twice: 0,
            erases: 0,
        }
    }
}

impl Flash for SimulatedNor {
    fn size(&self) -> u32 {
        1536
    }

    fn unit(&self) -> Unit {
        Unit::U16
    }

    fn sector(&self) -> u32 {
        256
    }

    fn read(&self, at: u32, out: &mut [u8]) {
        let from = at as usize;
        out.copy_from_slice(&self.bytes[from..from + out.len()]);
    }

    fn program(&mut self, at: u32, bytes: &[u8]) -> Result<(), ChipFault> {
        let from = at as usize;
        if self.bytes[from..from + bytes.len()]
            .iter()
            .any(|byte| *byte != 0xff)
        {
            self.twice = self.twice.saturating_add(1);
            return Err(ChipFault::Protected);
        }
        self.bytes[from..from + bytes.len()].copy_from_slice(bytes);
        Ok(())
    }

    fn erase(&mut self, at: u32) -> Result<(), ChipFault> {
        self.erases = self.erases.saturating_add(1);
        self.bytes[at as usize..][..256].fill(0xff);
        Ok(())
    }
}
