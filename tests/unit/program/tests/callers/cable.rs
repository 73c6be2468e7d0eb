//! A host stack whose transfers reach a device.

use crate::ram::Ram;
use arrayvec::ArrayVec;
use dfu::callers::{Fram, Happened, UsbHost, tell};
use fustrelan::device::{Answer, Device};
use fustrelan::host::Seen;

/// A host stack with a device at the other end of its cable.
pub(crate) struct Cable {
    device: Device<Fram<Ram>>,
    out: ArrayVec<u8, 4096>,
}

impl Cable {
    pub(crate) fn to(device: Device<Fram<Ram>>) -> Cable {
        Cable {
            device,
            out: ArrayVec::new(),
        }
    }

    pub(crate) fn device(&self) -> &Device<Fram<Ram>> {
        &self.device
    }
}

impl UsbHost for Cable {
    fn transfer(&mut self, setup: &[u8; 8], body: &[u8]) -> Seen<'_> {
        match tell(
            &mut self.device,
            Happened::Transfer,
            setup,
            body,
            &mut self.out,
        ) {
            Answer::Ack => Seen::Ack,
            Answer::Bytes => Seen::Bytes(self.out.as_slice()),
            Answer::Stall => Seen::Stall,
        }
    }

    fn wait(&mut self, ms: u32) {
        tell(
            &mut self.device,
            Happened::Tick(ms),
            &[0; 8],
            &[],
            &mut self.out,
        );
    }

    fn reset(&mut self) {
        tell(
            &mut self.device,
            Happened::BusReset,
            &[0; 8],
            &[],
            &mut self.out,
        );
    }
}
