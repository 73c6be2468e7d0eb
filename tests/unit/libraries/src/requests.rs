//! The identifiers that the devices have, and the requests that the tests of `device` and `asks` have in common.

use fustrelan::wire::Ids;

pub const IDS: Ids = Ids {
    device: 0x0100,
    product: 0x0001,
    vendor: 0x1209,
};

pub const GET_STATUS: [u8; 8] = [0xa1, 3, 0, 0, 0, 0, 6, 0];
pub const GET_STATE: [u8; 8] = [0xa1, 5, 0, 0, 0, 0, 1, 0];
pub const UPLOAD: [u8; 8] = [0xa1, 2, 0, 0, 0, 0, 8, 0];
pub const CLR_STATUS: [u8; 8] = [0x21, 4, 0, 0, 0, 0, 0, 0];
pub const ABORT: [u8; 8] = [0x21, 6, 0, 0, 0, 0, 0, 0];
pub const DETACH: [u8; 8] = [0x21, 0, 0xff, 0, 0, 0, 0, 0];
