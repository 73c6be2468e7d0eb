//! What files without a DFU suffix are.

use fustrelan::formats::{Ending, Format, Looks, NotImage, Place, bad_place, look_at};
use std::str;

const IHEX: Looks = Looks::Of(Format::IntelHex);

const SREC: Looks = Looks::Of(Format::SRecord);

const TEXT: Looks = Looks::Other(NotImage::Text);

/// Bytes, and what a file without a name is that has them.
#[rustfmt::skip]
static FILES: [(&[u8], Looks); 48] = [
    // Behind a byte order mark, blanks and empty lines: a colon, and two digits or text alone.
    (b":020000040800F2", IHEX), (b":aF\xff", IHEX), (b"\xef\xbb\xbf:00\0", IHEX), (b" \t\r\n\r\n :00\0", IHEX),
    (b"\xef\xbb\xbf\n:00", IHEX), (b":", IHEX), (b":10O00000", IHEX), (b":O0\n", IHEX), (b":g", IHEX),
    (b":\xc3\xa9", IHEX), (b":0g\0", Looks::Raw), (b":g0\0", Looks::Raw), (b":\xff", Looks::Raw), (b":0", IHEX),
    (b":0\0", Looks::Raw), (b"\x0c:00\0", Looks::Raw), (b"\0:00", Looks::Raw),
    // S, a digit, and two digits.
    (b"S00600004844521B", SREC), (b"S9aF\0", SREC), (b"\xef\xbb\xbf\r\n S113\0", SREC), (b"S9..", TEXT),
    (b"SA06", TEXT), (b"S:06\0", Looks::Raw), (b"S/06\0", Looks::Raw), (b"S1\x006\0", Looks::Raw),
    (b"s006\0", Looks::Raw), (b"S1O6\0", Looks::Raw), (b"S10", TEXT), (b"S1", TEXT),
    // The first bytes of the others.
    (b"DfuSe\x01", Looks::Other(NotImage::DfuSe)), (b"DfuSe", Looks::Other(NotImage::DfuSe)),
    (b"dfuSe\0", Looks::Raw), (b"UF2\nWQ", Looks::Of(Format::Uf2)), (b"UF2 \0", Looks::Raw),
    (b"\x7fELF\x02", Looks::Of(Format::Elf)), (b"\x7fELf", Looks::Raw), (b"\x7fEL", Looks::Raw),
    (b"PK\x03\x04", Looks::Other(NotImage::Zip)), (b"PK\x03", Looks::Raw), (b"PK\x05\x06", Looks::Raw),
    (b"\x1f\x8b", Looks::Other(NotImage::Gzip)), (b"\x1f", Looks::Raw),
    // Text is UTF-8 without control characters but four.
    (b"hello\tworld\x0c\r\n", TEXT), (b"\xef\xbb\xbf", TEXT),
    (b"gr\xc3\xbc\xc3\x9fe \xe2\x82\xac \xf0\x9f\x98\x80", TEXT), (b"hello\0", Looks::Raw),
    (b"hello\x7f", Looks::Raw), (b"", Looks::Raw),
];

#[test]
fn files() {
    for (file, looks) in &FILES {
        let look = look_at(file, b"");
        assert_eq!(look.looks, *looks, "{file:?}");
        assert_eq!(look.ending, None, "{file:?}");
    }
}

/// Bytes that are no UTF-8: a byte of none, a character that is cut or too long, a surrogate, and one past the last.
static BROKEN: [&[u8]; 8] = [
    b"a\x80",
    b"a\xff",
    b"\xc3",
    b"\xc3a",
    b"\xe2\x82",
    b"\xc0\xaf",
    b"\xed\xa0\x80",
    b"\xf4\x90\x80\x80",
];

#[test]
fn broken_text() {
    for file in &BROKEN {
        assert_eq!(look_at(file, b"").looks, Looks::Raw, "{file:?}");
    }
}

/// Bytes at which the rules of UTF-8 change, and a letter that is no digit.
static EDGES: [u8; 12] = [
    0x00, 0x47, 0x7f, 0x80, 0x8f, 0x90, 0x9f, 0xa0, 0xbf, 0xc0, 0xf4, 0xff,
];

/// The file is text exactly if the library says that it is UTF-8, and it has no other control character.
fn is_text_as_utf8(file: &[u8]) {
    let is_plain = file.iter().all(|byte| {
        (*byte >= b' ' && *byte != 0x7f) || matches!(*byte, b'\t' | b'\n' | 0x0c | b'\r')
    });
    let looks = look_at(file, b"").looks;
    let is_text = looks == TEXT || looks == IHEX;
    assert_eq!(
        is_text,
        is_plain && str::from_utf8(file).is_ok(),
        "{file:?}"
    );
}

#[test]
fn text_is_utf8() {
    for first in 0..=255u8 {
        for second in &EDGES {
            is_text_as_utf8(&[first, *second]);
            for third in &EDGES {
                is_text_as_utf8(&[first, *second, *third]);
                if first < 0xf0 {
                    continue;
                }
                for fourth in &EDGES {
                    is_text_as_utf8(&[first, *second, *third, *fourth]);
                }
            }
        }
    }
}

const HEX_NAME: Option<Ending> = Some(Ending::Of(Format::IntelHex));

const SREC_NAME: Option<Ending> = Some(Ending::Of(Format::SRecord));

const ELF_NAME: Option<Ending> = Some(Ending::Of(Format::Elf));

/// Names, and what they say.
#[rustfmt::skip]
static NAMES: [(&[u8], Option<Ending>); 27] = [
    (b"a.dfu", Some(Ending::Dfu)), (b".DfU", Some(Ending::Dfu)), (b"a/b.hex", HEX_NAME), (b"a.HEX", HEX_NAME),
    (b".hex", HEX_NAME), (b"a.iHex", HEX_NAME), (b"a.ihx", HEX_NAME), (b"a.mcs", HEX_NAME), (b"a.s19", SREC_NAME),
    (b"a.S28", SREC_NAME), (b"a.s37", SREC_NAME), (b"a.Srec", SREC_NAME), (b"a.mot", SREC_NAME),
    (b"a.uf2", Some(Ending::Of(Format::Uf2))), (b"a.elf", ELF_NAME), (b"a.AXF", ELF_NAME), (b"a.bin", None),
    (b"a.hexx", None), (b"ahex", None), (b"hex", None), (b"a.hex ", None), (b"a.hex/b", None), (b"a.hex/", None),
    (b"a.s\x119", None), (b"a\x0ehex", None), (b"a.s29", None), (b"", None),
];

#[test]
fn names() {
    for (name, ending) in &NAMES {
        let look = look_at(b"\0", name);
        assert_eq!(look.ending, *ending, "{name:?}");
        let looks = match ending {
            Some(ending) => Looks::Other(NotImage::Named(*ending)),
            None => Looks::Raw,
        };
        assert_eq!(look.looks, looks, "{name:?}");
        // Bytes that say something come first.
        assert_eq!(look_at(b"text", name).looks, TEXT, "{name:?}");
        assert_eq!(look_at(b"text", name).ending, *ending, "{name:?}");
    }
}

/// A line and a column, if there is one.
type Found = Option<(u64, u64)>;

/// Bytes of Intel HEX, and the line and the column of the first that no record has there.
static PLACES: [(&[u8], Found); 17] = [
    (b":00000001FF\n", None),
    (b"\xef\xbb\xbf :00 \t\r\n\n \n\t:0aF\r", None),
    (b":", None),
    (b":10O00000", Some((1, 4))),
    (b"\xef\xbb\xbf:10O0", Some((1, 4))),
    (b"\r\n  :10\n:1\xc3", Some((3, 3))),
    (b":00 0", Some((1, 5))),
    (b":00 :", Some((1, 5))),
    (b":00:", Some((1, 4))),
    (b":00\x0c", Some((1, 4))),
    (b":00\0", Some((1, 4))),
    (b":00\n00", Some((2, 1))),
    (b":00\nS9", Some((2, 1))),
    (b":00\n\xef\xbb\xbf:00", Some((2, 1))),
    (b":00\r:00", Some((1, 5))),
    (b":0@", Some((1, 3))),
    (b":0G", Some((1, 3))),
];

#[test]
fn places() {
    for (file, place) in &PLACES {
        let wanted = place.map(|(line, column)| Place { line, column });
        assert_eq!(look_at(file, b"").bad, wanted, "{file:?}");
        assert_eq!(bad_place(Format::IntelHex, file), wanted, "{file:?}");
    }
    let wanted = Some(Place { line: 2, column: 3 });
    assert_eq!(look_at(b"S903\n S:", b"").bad, wanted);
    assert_eq!(bad_place(Format::Uf2, b"?"), None);
    assert_eq!(look_at(b"text", b"a.hex").bad, None);
    assert_eq!(look_at(b"\0", b"a.hex").bad, None);
}
