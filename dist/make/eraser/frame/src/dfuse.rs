//! ST's extension of the protocol, DfuSe: the memories of a device, a session that stores an image, and the files.

pub mod file;
pub mod memory;
pub mod session;
