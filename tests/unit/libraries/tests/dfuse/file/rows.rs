//! What D says, and the fault of each file that differs from it in a field.

use super::made::{SIZE, changed, made, put};
use fustrelan::dfuse::file::{FileFault, read};
use fustrelan::wire::Ids;
use unit::{Outcome, are_displayed};

/// The file of a row is refused for this.
fn refused(bytes: &[u8], wanted: FileFault, row: usize) {
    match read(bytes) {
        Ok(_) => panic!("row {row} is read, and not {wanted:?}"),
        Err(fault) => assert_eq!(fault, wanted, "row {row}"),
    }
}

/// D is read, element by element.
fn is_d(bytes: &[u8]) -> Outcome {
    let file = read(bytes)?;
    let ids = Ids {
        vendor: 0x0483,
        product: 0xdf11,
        device: 0xffff,
    };
    assert_eq!(file.ids(), ids);
    assert_eq!(file.setting(), Some(0));
    let mut targets = file.targets();
    assert_eq!(targets.len(), 1);
    let mut target = targets.next_target().expect("no target");
    assert_eq!((target.setting, target.named), (0, 1));
    assert!(target.name.starts_with(b"ST...\0"));
    assert_eq!((target.name.len(), target.elements.len()), (255, 2));
    let first = target.elements.next_element().map(|e| (e.address, e.bytes));
    assert_eq!(first, Some((0x0800_0000, &[1, 2, 3, 4][..])));
    let second = target.elements.next_element().map(|e| (e.address, e.bytes));
    assert_eq!(second, Some((0x0800_4000, &[5, 6][..])));
    assert!(target.elements.next_element().is_none());
    assert!(targets.next_target().is_none());
    Ok(())
}

#[test]
fn d_with_either_size() -> Outcome {
    is_d(&made())?;
    let mut counted = made();
    put(&mut counted, 6, &[0x43, 0x01]);
    put(&mut counted, 319, &[0x4f, 0x32, 0xb9, 0xb4]);
    is_d(&counted)
}

/// D with other bytes at a place, and the CRC made right, with its fault: of the suffix, of the prefix, of the target, and of elements.
static REFUSED: [(usize, &[u8], FileFault); 16] = [
    (318, &[15], FileFault::BadLength),
    (313, &[0x00], FileFault::NotDfuSe),
    (0, b"d", FileFault::NoPrefix),
    (5, &[2], FileFault::BadVersion),
    (6, &[0x34], FileFault::BadImageSize),
    (10, &[0], FileFault::NoTargets),
    (10, &[2], FileFault::NoTarget),
    (11, b"t", FileFault::NoTarget),
    (277, &[0x17], FileFault::BadTargetSize),
    (281, &[1], FileFault::BadTargetSize),
    (281, &[3], FileFault::ElementPastTheTarget),
    // The elements are one with 3 bytes, and the other without: 4 bytes are left for a target that isn't counted.
    (277, &[0x0c, 0, 0, 0, 1], FileFault::Trailing),
    (289, &[0], FileFault::EmptyElement),
    (
        289,
        &[0xff, 0xff, 0xff, 0xff],
        FileFault::ElementPastTheTarget,
    ),
    (285, &[0xfe, 0xff, 0xff, 0xff], FileFault::AddressPastTheEnd),
    (285, &[0xfd, 0xff, 0xff, 0xff], FileFault::AddressPastTheEnd),
];

#[test]
fn refusals_of_changed_files() {
    for (row, (at, with, fault)) in REFUSED.iter().enumerate() {
        refused(&changed(*at, with), *fault, row);
    }
}

/// These have no CRC, or a wrong one.
#[test]
fn refusals_of_the_suffix() {
    refused(b"DfuSe", FileFault::TooShort, 0);
    refused(&[0; 16], FileFault::NoSignature, 1);
    let mut bytes = changed(0, b"d");
    put(&mut bytes, SIZE - 4, &[0, 0, 0, 0]);
    refused(&bytes, FileFault::BadCrc, 2);
    put(&mut bytes, 313, &[0x00]);
    refused(&bytes, FileFault::NotDfuSe, 3);
}

#[test]
fn last_address_is_taken() -> Outcome {
    let bytes = changed(285, &[0xfc, 0xff, 0xff, 0xff]);
    let file = read(&bytes)?;
    assert_eq!(file.setting(), Some(0));
    Ok(())
}

/// What each fault is printed as.
static TEXTS: [(FileFault, &str); 16] = [
    (FileFault::TooLarge, "the file has over 16777216 bytes"),
    (
        FileFault::TooShort,
        "the file has under 16 bytes, too few for a suffix",
    ),
    (FileFault::NoSignature, "the file has no DFU signature"),
    (
        FileFault::BadLength,
        "the suffix's length is under 16 or over the file's",
    ),
    (FileFault::NotDfuSe, "the file is not a DfuSe file"),
    (
        FileFault::BadCrc,
        "the file's CRC differs from the one in its suffix",
    ),
    (
        FileFault::NoPrefix,
        "the file does not begin as a DfuSe file",
    ),
    (
        FileFault::BadVersion,
        "the file is of another version of DfuSe",
    ),
    (
        FileFault::BadImageSize,
        "the file has another size than it says",
    ),
    (FileFault::NoTargets, "the file has no targets"),
    (
        FileFault::NoTarget,
        "the file has fewer targets than it says",
    ),
    (
        FileFault::BadTargetSize,
        "a target has another size than it says",
    ),
    (
        FileFault::ElementPastTheTarget,
        "an element ends behind its target",
    ),
    (FileFault::EmptyElement, "an element has no bytes"),
    (
        FileFault::AddressPastTheEnd,
        "an element ends behind the last address",
    ),
    (
        FileFault::Trailing,
        "the file has more bytes behind its last target",
    ),
];

#[test]
fn texts_of_faults() {
    are_displayed(&TEXTS);
}
