// Of crates/dfu_wire/src/setups.rt, whose contracts are taken away.

//! Setup packets, the eight bytes that begin a request (USB DFU 1.1, section 3).

use crate::wire::Request;
use crate::wire::bytes::two_bytes;
use byteorder::{ByteOrder, LittleEndian};

/// bmRequestType of a class request to an interface, host to device.
pub(crate) const OUT: u8 = 0x21;

/// bmRequestType of a class request to an interface, device to host.
pub(crate) const IN: u8 = 0xa1;

/// Setup packet, the eight bytes that begin a request. Any eight bytes are a setup. Two-byte numbers have their low byte first.
#[derive(Clone, Copy, Debug, PartialEq, Eq)]
pub struct Setup {
    /// bmRequestType, byte 0. 21h is a DFU request from host to device, and A1h is one from device to host. No DFU request has another
    /// value.
    pub kind: u8,
    /// bRequest, byte 1: number of the request.
    pub request: u8,
    /// wValue, bytes 2 and 3: timeout of DETACH, or block number of DNLOAD and UPLOAD.
    pub value: u16,
    /// wIndex, bytes 4 and 5: interface, which is 0 in the setup of a DFU request.
    pub index: u16,
    /// wLength, bytes 6 and 7: number of bytes that follow, or the largest number that the device may send.
    pub length: u16,
}

impl Setup {
    /// Decodes `bytes` as a setup. The call never fails, because any eight bytes are a setup.
    pub fn decode(bytes: &[u8; 8]) -> Setup {
        Setup {
            kind: bytes[0],
            request: bytes[1],
            value: LittleEndian::read_u16(&bytes[2..]),
            index: LittleEndian::read_u16(&bytes[4..]),
            length: LittleEndian::read_u16(&bytes[6..]),
        }
    }

    /// Encodes the setup. `decode` of the result returns an equal setup.
    pub fn encode(&self) -> [u8; 8] {
        let [value_low, value_high] = two_bytes(self.value);
        let [index_low, index_high] = two_bytes(self.index);
        let [length_low, length_high] = two_bytes(self.length);
        [
            self.kind,
            self.request,
            value_low,
            value_high,
            index_low,
            index_high,
            length_low,
            length_high,
        ]
    }

    /// Returns the request of the setup, by the first case that applies:
    ///
    /// - `NotDfu` if the kind is neither 21h nor A1h, or the index is not 0;
    /// - `OtherClass` if the table at [`Request`] doesn't contain the kind with the number, or if the
    ///   length of a DETACH, CLRSTATUS or ABORT is not 0;
    /// - the request of the table, where the value of a GETSTATUS, CLRSTATUS, GETSTATE or ABORT is
    ///   ignored.
    pub fn request(&self) -> Request {
        if self.kind != OUT && self.kind != IN || self.index != 0 {
            return Request::NotDfu;
        }
        let Setup { value, length, .. } = *self;
        match (self.kind, self.request) {
            (OUT, 0) if length == 0 => Request::Detach { timeout: value },
            (OUT, 1) => Request::Dnload {
                block: value,
                length,
            },
            (IN, 2) => Request::Upload {
                block: value,
                length,
            },
            (IN, 3) => Request::GetStatus { length },
            (OUT, 4) if length == 0 => Request::ClrStatus,
            (IN, 5) => Request::GetState { length },
            (OUT, 6) if length == 0 => Request::Abort,
            _ => Request::OtherClass,
        }
    }
}
