// Of crates/dfu_device/src/objection.rt, whose contracts are taken away.

//! Refusal of a received image by the device's own program.

use crate::device::device_state::DeviceState;
use crate::device::Device;
use crate::slots::Medium;
use crate::wire::{Code, Request, Setup};

// Returns true if a request is a DNLOAD of no bytes.
fn closes(request: Request) -> bool {
    match request {
        Request::Dnload { length, .. } => length == 0,
        _ => false,
    }
}

/// Returns true if `setup` is a DNLOAD with wLength 0. In dfuDNLOAD-IDLE such a DNLOAD closes the download, if enough bytes were received.
pub fn is_close(setup: &[u8; 8]) -> bool {
    closes(Setup::decode(setup).request())
}

/// Reasons for which the device's own program refuses an image (USB DFU 1.1, section 6.1.2, bStatus).
#[derive(Clone, Copy, Debug, PartialEq, Eq)]
pub enum Objection {
    /// The image is not for this device: errTARGET.
    Target,
    /// The image is for this device, but fails a test of its vendor, such as a signature check: errFILE.
    File,
}

impl Objection {
    /// Returns the status code that reports the objection to the host.
    pub fn code(self) -> Code {
        match self {
            Objection::Target => Code::Target,
            Objection::File => Code::File,
        }
    }
}

impl<M: Medium> Device<M> {
    /// Refuses the image when the host closes its download, and returns true: `setup` is a DNLOAD of no bytes in dfuDNLOAD-IDLE, after at
    /// least the smallest image length was received. The device enters dfuERROR with errTARGET or errFILE and writes nothing. The caller
    /// stalls the request.
    ///
    /// In every other case returns false and changes nothing; the caller then passes `setup` to `handle`.
    pub fn refuse_close(&mut self, setup: &[u8; 8], objection: Objection) -> bool {
        let may_close = self.core.mode.may_close(self.core.config.least());
        if !may_close || !is_close(setup) {
            return false;
        }
        self.core.mode = DeviceState::after_refused_close(objection);
        true
    }

    /// Refuses the image of a closed download, for a program whose check takes longer than a transfer may. In dfuMANIFEST-SYNC, before
    /// manifestation is complete, and in dfuMANIFEST the device enters dfuERROR with errTARGET or errFILE, and the image doesn't become
    /// active. In every other state nothing changes.
    pub fn refuse(&mut self, objection: Objection) {
        self.core.mode = self.core.mode.after_refusal(objection);
    }
}
