// Of crates/dfu_wire/src/requests.rt, whose contracts are taken away.

//! Requests and their setups (USB DFU 1.1, section 3).

use crate::wire::Setup;
use crate::wire::setups::{IN, OUT};

/// Request that a setup encodes: one of the seven DFU requests, or another one.
///
/// | Request | Kind | Number | Value | Length |
/// |---|---|---|---|---|
/// | DETACH | 21h | 0 | timeout in milliseconds | 0 |
/// | DNLOAD | 21h | 1 | block number | number of bytes sent |
/// | UPLOAD | A1h | 2 | block number | largest number of bytes in the answer |
/// | GETSTATUS | A1h | 3 | none | largest number of bytes in the answer |
/// | CLRSTATUS | 21h | 4 | none | 0 |
/// | GETSTATE | A1h | 5 | none | largest number of bytes in the answer |
/// | ABORT | 21h | 6 | none | 0 |
#[derive(Clone, Copy, Debug, PartialEq, Eq)]
pub enum Request {
    /// Enter upgrade mode at the next reset, if it occurs within `timeout` milliseconds.
    Detach { timeout: u16 },
    /// Receive block `block` of an image with `length` bytes; a length of 0 ends the image.
    Dnload { block: u16, length: u16 },
    /// Send block `block` of the image, at most `length` bytes.
    Upload { block: u16, length: u16 },
    /// Send the 6 bytes of the status, or only the first `length` of them if `length` is below 6.
    GetStatus { length: u16 },
    /// Leave the state dfuERROR.
    ClrStatus,
    /// Send the single byte of the state, or no byte if `length` is 0.
    GetState { length: u16 },
    /// Abandon the current download or upload, and return to dfuIDLE.
    Abort,
    /// Another class request to interface 0, which the table doesn't contain.
    OtherClass,
    /// A request of another type, or a class request to another interface.
    NotDfu,
}

impl Request {
    /// Returns the setup of the request, with index 0, and with value 0 if the table lists no value. Returns `None` exactly for
    /// `OtherClass` and `NotDfu`. `Setup::request` of the result returns an equal request.
    pub fn setup(&self) -> Option<Setup> {
        let (kind, request, value, length) = match *self {
            Request::Detach { timeout } => (OUT, 0, timeout, 0),
            Request::Dnload { block, length } => (OUT, 1, block, length),
            Request::Upload { block, length } => (IN, 2, block, length),
            Request::GetStatus { length } => (IN, 3, 0, length),
            Request::ClrStatus => (OUT, 4, 0, 0),
            Request::GetState { length } => (IN, 5, 0, length),
            Request::Abort => (OUT, 6, 0, 0),
            Request::OtherClass | Request::NotDfu => return None,
        };
        Some(Setup {
            kind,
            request,
            value,
            index: 0,
            length,
        })
    }

    /// Returns the name of the request in the standard, such as `DETACH`. `OtherClass` has the name `other-class`, and `NotDfu` has
    /// `not-dfu`.
    pub fn name(self) -> &'static str {
        match self {
            Request::Detach { .. } => "DETACH",
            Request::Dnload { .. } => "DNLOAD",
            Request::Upload { .. } => "UPLOAD",
            Request::GetStatus { .. } => "GETSTATUS",
            Request::ClrStatus => "CLRSTATUS",
            Request::GetState { .. } => "GETSTATE",
            Request::Abort => "ABORT",
            Request::OtherClass => "other-class",
            Request::NotDfu => "not-dfu",
        }
    }
}
