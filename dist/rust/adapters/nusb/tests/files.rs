//! What a file is, and which are refused.
use fustrelan::dfu::Ids;
use fustrelan::formats::{Ending, Format, Looks, NotImage};
use fustrelan::suffix::{SuffixFault, read};
use fustrelan_nusb::file::{FileFault, file_of};

const IDS: Option<Ids> = Some(Ids { vendor: 0x1209, product: 1, device: 0xffff });

fn refused(bytes: &[u8], name: &str) -> FileFault {
    file_of(bytes, name, IDS, false).unwrap_err()
}

#[test]
fn bytes_get_a_suffix_for_their_device() {
    let file = file_of(&[1, 2, 3, 0x80], "image.bin", IDS, false).unwrap();
    let found = read(&file).unwrap();
    assert_eq!(found.payload(), [1, 2, 3, 0x80]);
    assert_eq!(found.ids(), Ids { vendor: 0x1209, product: 1, device: 0xffff });
    assert_eq!(file_of(&file, "firmware.dfu", None, false).unwrap(), file);
    assert_eq!(file_of(&file, "firmware.dfu", IDS, true), Err(FileFault::NotRaw));
}

#[test]
fn bytes_for_no_device_are_refused() {
    assert_eq!(file_of(&[1, 2, 3, 0x80], "image.bin", None, false), Err(FileFault::NoTarget));
    let any = Some(Ids { vendor: 0x1209, product: 0xffff, device: 0xffff });
    assert_eq!(file_of(&[1, 2, 3, 0x80], "image.bin", any, false), Err(FileFault::NoTarget));
}

#[test]
fn files_of_other_software_are_refused() {
    assert_eq!(refused(b":00000001FF\n", "image"), FileFault::Other(Looks::Of(Format::IntelHex)));
    assert_eq!(refused(b"S9030000FC\n", "image"), FileFault::Other(Looks::Of(Format::SRecord)));
    assert_eq!(refused(b"UF2\n\x57\x51\x5d\x9e", "image"), FileFault::Other(Looks::Of(Format::Uf2)));
    assert_eq!(refused(b"\x7fELF\x01\x01", "image"), FileFault::Other(Looks::Of(Format::Elf)));
    assert_eq!(refused(b"PK\x03\x04\0\0", "image"), FileFault::Other(Looks::Other(NotImage::Zip)));
    assert_eq!(refused(b"\x1f\x8b\x08\0", "image"), FileFault::Other(Looks::Other(NotImage::Gzip)));
    assert_eq!(refused(b"hello, world, this is text\n", "image"), FileFault::Other(Looks::Other(NotImage::Text)));
    assert_eq!(refused(b"DfuSe\x01\0\0\0\0\0", "image"), FileFault::Other(Looks::Other(NotImage::DfuSe)));
    assert_eq!(refused(&[0, 1, 2, 3], "firmware.dfu"), FileFault::Other(Looks::Other(NotImage::Named(Ending::Dfu))));
    assert!(file_of(b"hello, world, this is text\n", "image", IDS, true).is_ok());
    assert_eq!(file_of(b"DfuSe\x01\0\0\0\0\0", "image", IDS, true), Err(FileFault::Other(Looks::Other(NotImage::DfuSe))));
}

#[test]
fn broken_suffixes_are_refused() {
    let mut file = file_of(&[1, 2, 3, 0x80], "image.bin", IDS, false).unwrap();
    file[0] = 9;
    assert_eq!(refused(&file, "firmware.dfu"), FileFault::Suffix(SuffixFault::BadCrc));
    assert_eq!(file_of(&file, "firmware.dfu", IDS, true), Err(FileFault::Suffix(SuffixFault::BadCrc)));
}
