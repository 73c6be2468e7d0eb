//! Files without addresses.

use super::made::{SIZE, changed, made, put};
use fustrelan::dfuse::file::{RawFault, read_raw};
use fustrelan::suffix::Crc;

/// A file is refused for this.
fn refused(bytes: &[u8], address: u32, wanted: RawFault) {
    match read_raw(bytes, address) {
        Ok(_) => panic!("read, and not {wanted:?}"),
        Err(fault) => assert_eq!(fault, wanted),
    }
}

/// A file gives these bytes.
fn gives(bytes: &[u8], address: u32, wanted: &[u8]) {
    match read_raw(bytes, address) {
        Ok(element) => assert_eq!((element.address, element.bytes), (address, wanted)),
        Err(fault) => panic!("{fault:?}"),
    }
}

#[test]
fn raw_files() {
    gives(&[1], 0xffff_ffff, &[1]);
    gives(&[7; 40], 0x0800_0000, &[7; 40]);
    refused(&[], 0, RawFault::Empty);
    refused(&[1, 2], 0xffff_ffff, RawFault::AddressPastTheEnd);
    refused(b"DfuSe", 0, RawFault::HasAddresses);
}

/// A file with a suffix of USB DFU 1.1: three bytes, if the CRC is right.
fn suffixed(is_right: bool) -> [u8; 19] {
    let mut bytes = [
        9, 8, 7, 0xff, 0xff, 0x11, 0xdf, 0x83, 0x04, 0x00, 0x01, b'U', b'F', b'D', 16, 0, 0, 0, 0,
    ];
    let mut crc = Crc::new();
    crc.update(&bytes[..15]);
    if is_right {
        bytes[15..].copy_from_slice(&crc.value().to_le_bytes());
    }
    bytes
}

#[test]
fn files_with_a_suffix() {
    gives(&suffixed(true), 16, &[9, 8, 7]);
    refused(&suffixed(false), 16, RawFault::BadCrc);
    let mut bytes = suffixed(true);
    bytes[14] = 15;
    refused(&bytes, 16, RawFault::BadLength);
    refused(&bytes[3..], 16, RawFault::BadLength);
}

#[test]
fn dfuse_files_are_never_raw() {
    refused(&made(), 0x0800_0000, RawFault::HasAddresses);
    refused(&changed(0, b"d"), 0x0800_0000, RawFault::HasAddresses);
    let mut damaged = made();
    put(&mut damaged, 319, &[0]);
    refused(&damaged, 0x0800_0000, RawFault::HasAddresses);
    refused(&made()[..SIZE - 1], 0x0800_0000, RawFault::HasAddresses);
}
