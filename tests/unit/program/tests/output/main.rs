//! The lines that are printed of known files. `tests/lib/examples/show` runs the program on known bytes.

mod reasons;
mod streams;

use dfu::output::{Exit, add_text, check_text};
use fustrelan::memory::Global;
use fustrelan::wire::Ids;
use unit_program::known_files::{DIGITS, FOUR_ONES};

const DIGITS_IDS: Ids = Ids {
    device: 0x0100,
    product: 0x0001,
    vendor: 0x1209,
};

/// The check of this file prints this line, and ends like this.
fn checks(file: &[u8], line: &str, end: Exit) {
    let mut out = Vec::new();
    assert_eq!(check_text(Global, file, &mut out), end, "{line}");
    assert_eq!(out.as_slice(), line.as_bytes());
}

#[test]
fn checks_known_files() {
    let ones =
        "ok payload 4 suffix 16 device ffff product ffff vendor ffff dfu 0100 crc 0c51c871\n";
    let digits =
        "ok payload 9 suffix 16 device 0100 product 0001 vendor 1209 dfu 0100 crc fe701c62\n";
    checks(&FOUR_ONES, ones, Exit::Done);
    checks(&DIGITS, digits, Exit::Done);
    let (short, end) = ("refused TooShort\n", Exit::Refused);
    checks(&FOUR_ONES[..15], short, end);
    checks(&FOUR_ONES[..19], "refused NoSignature\n", end);
}

/// The payload gets a suffix: this line is printed, these bytes are written, and it ends like this.
fn adds(payload: &[u8], file: &[u8], line: &str, end: Exit) {
    let mut made = Vec::new();
    let mut out = Vec::new();
    let exit = add_text(Global, payload, DIGITS_IDS, &mut made, &mut out);
    assert_eq!(exit, end);
    assert_eq!((made.as_slice(), out.as_slice()), (file, line.as_bytes()));
}

#[test]
fn adds_a_suffix() {
    adds(b"123456789", &DIGITS, "wrote 25\n", Exit::Done);
}

#[test]
fn adds_no_second_suffix() {
    let line = "refused AlreadySuffixed\n";
    adds(&FOUR_ONES, b"", line, Exit::Refused);
}
