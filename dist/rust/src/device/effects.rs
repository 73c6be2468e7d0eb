// Of crates/dfu_device/src/effects.rt, whose contracts are taken away.

//! Effects of a device on its slot store: it writes a block, or makes the received image active.

use crate::device::device_core::DeviceCore;
use crate::device::device_state::DeviceState;
use crate::slots::{Medium, PutFault, Slots, WriteFault};
use crate::wire::Code;

impl<M: Medium> DeviceCore<M> {
    /// Writes the block. If `late` is true, the busy time ended, and the host must request the status once more.
    ///
    /// # Errors
    ///
    /// The fault of the write that failed. The device is then in dfuERROR.
    pub(crate) fn write_block(
        &mut self,
        written: u32,
        number: u16,
        late: bool,
    ) -> Result<(), WriteFault> {
        match put_block(&mut self.slots, written, self.block.as_slice()) {
            Ok(()) => {
                let written = written + self.block.as_slice().len() as u32;
                self.mode = if late {
                    DeviceState::DownloadSyncWritten { written, number }
                } else {
                    DeviceState::DownloadIdle { written, number }
                };
                Ok(())
            }
            Err(fault) => {
                let fault = write_fault(fault);
                self.mode = DeviceState::Error {
                    code: write_code(fault),
                };
                Err(fault)
            }
        }
    }

    /// Activates the image that consists of the `written` bytes received, and enters `next`.
    ///
    /// # Errors
    ///
    /// The fault of the write that failed. The device is then in dfuERROR.
    pub(crate) fn commit_taken(&mut self, written: u32, next: DeviceState) -> Result<(), WriteFault> {
        match self.slots.commit(written) {
            Ok(()) => {
                self.mode = next;
                Ok(())
            }
            Err(fault) => {
                let fault = write_fault(fault);
                self.mode = DeviceState::Error {
                    code: commit_code(fault),
                };
                Err(fault)
            }
        }
    }
}

/// Converts the fault that a call of the slot store returned to the fault of the write that interrupted the call: `NotVerified` stays, and
/// any other fault gives `Failed`.
fn write_fault(fault: PutFault) -> WriteFault {
    match fault {
        PutFault::NotVerified => WriteFault::NotVerified,
        PutFault::TooLarge | PutFault::Failed | PutFault::NotBegun => WriteFault::Failed,
    }
}

/// Returns the status code for `fault` in the write of a block.
fn write_code(fault: WriteFault) -> Code {
    match fault {
        WriteFault::Failed => Code::Write,
        WriteFault::NotVerified => Code::Verify,
    }
}

/// Returns the status code for `fault` in the writes of a commit.
fn commit_code(fault: WriteFault) -> Code {
    match fault {
        WriteFault::Failed => Code::Prog,
        WriteFault::NotVerified => Code::Verify,
    }
}

/// Writes a block after the `written` bytes that were put before. Calls `begin` before the first block.
fn put_block<M: Medium>(slots: &mut Slots<M>, written: u32, block: &[u8]) -> Result<(), PutFault> {
    if written > 0 {
        return slots.put(written, block);
    }
    match slots.begin() {
        Err(fault) => Err(fault),
        Ok(()) => slots.put(0, block),
    }
}
