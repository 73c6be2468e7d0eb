//! Descriptors that were worked out by hand from the standard's table.

use fustrelan::wire::{Functional, WireFault, reread_functional};

const DESCRIPTOR: Functional = Functional {
    can_download: true,
    can_upload: false,
    tolerant: true,
    will_detach: true,
    detach_ms: 255,
    transfer: 8,
    version: 0x0110,
};

#[test]
fn descriptor_is_read_and_written_without_its_reserved_bits() {
    let bytes = [0x09, 0x21, 0x0d, 0xff, 0x00, 0x08, 0x00, 0x10, 0x01];
    let reserved = [0x09, 0x21, 0xfd, 0xff, 0x00, 0x08, 0x00, 0x10, 0x01];
    assert_eq!(Functional::decode(&bytes), Ok(DESCRIPTOR));
    assert_eq!(Functional::decode(&reserved), Ok(DESCRIPTOR));
    assert_eq!(DESCRIPTOR.encode(), bytes);
    assert_eq!(reread_functional(&DESCRIPTOR), Ok(DESCRIPTOR));
}

#[test]
fn descriptor_of_seven_bytes_is_read_with_version_1_0_and_written_in_nine() {
    let bytes = [0x07, 0x21, 0x0d, 0xff, 0x00, 0x08, 0x00];
    let reserved = [0x07, 0x21, 0xfd, 0xff, 0x00, 0x08, 0x00];
    let old = Functional {
        version: 0x0100,
        ..DESCRIPTOR
    };
    assert_eq!(Functional::decode(&bytes), Ok(old));
    assert_eq!(Functional::decode(&reserved), Ok(old));
    assert_eq!(
        old.encode(),
        [0x09, 0x21, 0x0d, 0xff, 0x00, 0x08, 0x00, 0x00, 0x01]
    );
    assert_eq!(reread_functional(&old), Ok(old));
}

/// Bytes, and their first fault.
static FAULTS: [(&[u8], WireFault); 14] = [
    (&[], WireFault::Short),
    (&[0x07], WireFault::Short),
    (&[0x07, 0x22, 0, 0, 0, 0], WireFault::Short),
    (&[0x07, 0x22, 0, 0, 0, 0, 0, 0], WireFault::Long),
    (&[0x07, 0x21, 0, 0, 0, 0, 0, 0, 0], WireFault::Long),
    (&[0x07, 0x22, 0, 0, 0, 0, 0], WireFault::WrongType),
    (&[0x08, 0x21, 0, 0, 0, 0, 0], WireFault::WrongLength),
    (&[0x08, 0x21, 0, 0, 0, 0, 0, 0], WireFault::WrongLength),
    (&[0x00], WireFault::WrongLength),
    (
        &[0x0a, 0x22, 0, 0, 0, 0, 0, 0, 0, 0],
        WireFault::WrongLength,
    ),
    (&[0x09], WireFault::Short),
    (&[0x09, 0x22, 0, 0, 0, 0, 0, 0], WireFault::Short),
    (&[0x09, 0x22, 0, 0, 0, 0, 0, 0, 0, 0], WireFault::Long),
    (&[0x09, 0x22, 0, 0, 0, 0, 0, 0, 0], WireFault::WrongType),
];

#[test]
fn descriptor_faults_come_in_their_order() {
    for (bytes, fault) in &FAULTS {
        assert_eq!(Functional::decode(bytes), Err(*fault), "at {bytes:?}");
    }
}
