//! What `dfu add` makes of files that are no raw image, and what it says of them, on the machine in memory.

use crate::acting::OLD;
use crate::machine::{Kind, Machine, entry_in};
use crate::reasons::says;
use unit_program::Outcome;
use unit_program::known_files::DIGITS;

/// A file's name, its bytes, further words, and the status, what is printed and what is said of it.
type Row = (
    &'static str,
    &'static [u8],
    &'static str,
    (u8, &'static str, &'static str),
);

const NAMED_DFU: &str = "dfu: a.DFU: its name ends in .dfu, but it has no DFU suffix: it was cut short or damaged; get it anew\n";

const NAMED_HEX: &str = "dfu: .hex: its name is that of ihex, but it does not begin so: build it anew, or rename it if it is a raw image\n";

const NAMED_UF2: &str = "dfu: a.uf2: its name is that of uf2, but it does not begin so: build it anew, or rename it if it is a raw image\n";

const SUFFIXED: &str =
    "dfu: a.dfu: it has a suffix already: use it as it is, or dfu set changes its identifiers\n";

const LETTER: &str = "dfu: a: line 1: not all is pairs of hexadecimal digits; the first wrong character is at line 1, column 4; build it anew\n";

const NO_MARK: &str = "dfu: a: line 1: no record begins so; the first wrong character is at line 1, column 1; build it anew\n";

const LOOKS: &str =
    "dfu: a: it looks like ihex, and was taken as it is; --format ihex takes the image out of it\n";

const BEGINS_AS_DFUSE: &str =
    "dfu: a: it was taken as it is, though it begins as a DfuSe file: give it to dfu-flash, and get it anew if that refuses it\n";

const TAKEN_DFU: &str = "dfu: a.DFU: it was taken as it is, though its name ends in .dfu, but it has no DFU suffix: it was cut short or damaged; get it anew\n";

/// One byte at 0, behind a byte order mark.
const MARKED: &[u8] = b"\xef\xbb\xbf:0100000001FE\n:00000001FF\n";

#[rustfmt::skip]
static ROWS: [Row; 26] = [
    ("a", b"hello\n", "--format auto",
        (1, "refused NotAnImage text\n", "dfu: a: it is text and no image: give the file that the build made of it\n")),
    ("a", b"DfuSe\x01", "--format auto",
        (1, "refused NotAnImage dfuse\n", "dfu: a: it begins as a DfuSe file: give it to dfu-flash, and get it anew if that refuses it\n")),
    ("a", b"PK\x03\x04\0", "--format auto",
        (1, "refused NotAnImage zip\n", "dfu: a: it is a zip archive: unpack it, and give the file in it\n")),
    ("a", b"\x1f\x8b\x08", "--format auto",
        (1, "refused NotAnImage gzip\n", "dfu: a: it is a gzip archive: unpack it, and give the file in it\n")),
    ("a.DFU", b"\0\x01", "--format auto", (1, "refused NotAnImage named-dfu\n", NAMED_DFU)),
    (".hex", b"\0\x01", "--format auto", (1, "refused NotAnImage named-ihex\n", NAMED_HEX)),
    ("a.uf2", b"", "--format auto", (1, "refused NotAnImage named-uf2\n", NAMED_UF2)),
    // What has a suffix is refused for that, whatever it is called.
    ("a.dfu", &DIGITS, "--format auto", (1, "refused AlreadySuffixed\n", SUFFIXED)),
    // Bytes that say a format count more than a name that says another.
    ("a.dfu", b":0100000001FE\n:00000001FF\n", "--format auto", (0, "wrote 17\nformat ihex address 0x00000000\n", "")),
    ("a.bin", b"\0\x01", "--format auto", (0, "wrote 18\n", "")),
    ("a", b"", "--format auto", (0, "wrote 16\n", "")),
    // The reader's fault, and the place of the first wrong character.
    ("a", b":10O0000011\n", "--format auto", (1, "refused BadDigit 1\n", LETTER)),
    ("a", b":10O0000011\n", "--format ihex", (1, "refused BadDigit 1\n", LETTER)),
    ("a", b"123456789", "--format srec", (1, "refused NoMark 1\n", NO_MARK)),
    ("a", b":0100000001FD\n", "--format auto", (1, "refused BadChecksum 1\n", "dfu: a: line 1: the checksum is wrong; build it anew\n")),
    // Behind a byte order mark, by any way to take it.
    ("a", MARKED, "--format auto", (0, "wrote 17\nformat ihex address 0x00000000\n", "")),
    ("a", MARKED, "--format ihex", (0, "wrote 17\nformat ihex address 0x00000000\n", "")),
    ("a", MARKED, "", (0, "wrote 45\n", LOOKS)),
    // Without --format what is no image is taken as it is, with a hint, which --format raw leaves out.
    ("a", b"PK\x03\x04\0", "",
        (0, "wrote 21\n", "dfu: a: it was taken as it is, though it is a zip archive: unpack it, and give the file in it\n")),
    ("a", b"\x1f\x8b\x08", "",
        (0, "wrote 19\n", "dfu: a: it was taken as it is, though it is a gzip archive: unpack it, and give the file in it\n")),
    ("a", b"DfuSe\x01", "", (0, "wrote 22\n", BEGINS_AS_DFUSE)),
    ("a.DFU", b"\0\x01", "", (0, "wrote 18\n", TAKEN_DFU)),
    ("a.bin", b"\0\x01", "", (0, "wrote 18\n", "")),
    ("a", b"", "", (0, "wrote 16\n", "")),
    ("a", MARKED, "--format raw", (0, "wrote 45\n", "")),
    // Without --format text is taken as it is, without a word.
    ("a", b"hello\n", "", (0, "wrote 22\n", "")),
];

/// Nothing is made of a file that is refused.
#[test]
fn looks() -> Outcome {
    for (name, file, words, row) in &ROWS {
        let machine = Machine::new(b"", "");
        machine.put(name, Kind::File, file)?;
        machine.put("b", Kind::File, OLD)?;
        let line = format!("dfu add {name} b {words}");
        says(&machine, &line, true, *row);
        let (status, _, _) = row;
        let state = machine.state.borrow();
        let out = entry_in(&state.folder, "b")?;
        assert_eq!(out.bytes.as_slice() == OLD, *status == 1, "{line}");
    }
    Ok(())
}
