//! Tests of DfuSe: files, the host and memory maps.

mod file;
mod host;
mod memory;
