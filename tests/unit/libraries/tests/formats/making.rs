//! The image of a file in each format.

use fustrelan::formats::{Format, ImageFault, ImageFileFault, LayFault, image_of};
use fustrelan::memory::Global;
use unit::Outcome;

/// Two bytes at 08000000h, and one at 08000003h.
const GAPPED: &str = ":020000040800F2\n:020000000102FB\n:0100030003F9\n:00000001FF";

#[test]
fn images() -> Outcome {
    let image = image_of(Global, Format::IntelHex, Some(0xa5), GAPPED.as_bytes())?;
    assert_eq!(image.address, 0x0800_0000);
    assert_eq!(image.bytes.as_slice(), [1, 2, 0xa5, 3].as_slice());
    let image = image_of(Global, Format::SRecord, None, b"S1060010AABBCC B8").err();
    assert_eq!(image, Some(ImageFileFault::Unread(ImageFault::BadDigit(1))));
    Ok(())
}

/// A format, a file, and why it makes no image.
static FAULTS: [(Format, &str, ImageFileFault); 6] = [
    (
        Format::IntelHex,
        GAPPED,
        ImageFileFault::Unlaid(LayFault::Gap(0x0800_0002, 0x0800_0003)),
    ),
    (Format::IntelHex, ":00000001FF", ImageFileFault::NoData),
    (
        Format::IntelHex,
        "",
        ImageFileFault::Unread(ImageFault::NoEnd),
    ),
    (
        Format::SRecord,
        GAPPED,
        ImageFileFault::Unread(ImageFault::NoMark(1)),
    ),
    (
        Format::Uf2,
        GAPPED,
        ImageFileFault::Unread(ImageFault::BadSize),
    ),
    (
        Format::Elf,
        GAPPED,
        ImageFileFault::Unread(ImageFault::NotElf),
    ),
];

#[test]
fn faults() {
    for (format, file, fault) in &FAULTS {
        let answer = image_of(Global, *format, None, file.as_bytes());
        assert_eq!(answer.err(), Some(*fault));
    }
    let text = ImageFileFault::Unread(ImageFault::NoMark(1)).to_string();
    assert_eq!(text.as_str(), "line 1: no record begins so");
}
