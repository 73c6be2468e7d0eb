//! A chip in memory.

use dfu::callers::{Chip, ChipFault};

/// What the next writes do.
#[derive(Clone, Copy, PartialEq, Eq)]
enum Writes {
    Work,
    /// So many work, and then all fail.
    FailAfter(u32),
    /// So many work, and then they write nothing, and say that they worked.
    LieAfter(u32),
}

/// A chip in memory, of bytes FFh at first.
pub(crate) struct Ram {
    bytes: [u8; 192],
    writes: Writes,
}

impl Ram {
    pub(crate) fn new() -> Ram {
        Ram {
            bytes: [0xff; 192],
            writes: Writes::Work,
        }
    }

    /// So many more writes work, and then all fail.
    pub(crate) fn fail_after(&mut self, writes: u32) {
        self.writes = Writes::FailAfter(writes);
    }

    /// So many more writes work, and then they only say that they do.
    pub(crate) fn lie_after(&mut self, writes: u32) {
        self.writes = Writes::LieAfter(writes);
    }
}

impl Chip for Ram {
    fn size(&self) -> u32 {
        192
    }

    fn read(&self, at: u32, out: &mut [u8]) {
        let from = at as usize;
        out.copy_from_slice(&self.bytes[from..from + out.len()]);
    }

    fn write(&mut self, at: u32, bytes: &[u8]) -> Result<(), ChipFault> {
        match self.writes {
            Writes::FailAfter(0) => return Err(ChipFault::Bus),
            Writes::LieAfter(0) => return Ok(()),
            Writes::FailAfter(left) => self.writes = Writes::FailAfter(left - 1),
            Writes::LieAfter(left) => self.writes = Writes::LieAfter(left - 1),
            Writes::Work => {}
        }
        self.bytes[at as usize..][..bytes.len()].copy_from_slice(bytes);
        Ok(())
    }
}
