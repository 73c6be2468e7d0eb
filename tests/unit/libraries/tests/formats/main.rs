//! Files, and what is read of them, worked out by hand.

mod elf;
mod ihex;
mod laying;
mod looks;
mod making;
mod srec;
mod uf2;

use fustrelan::formats::{Element, ImageFault};
use fustrelan::memory::{Global, Vec};
use std::fmt::Write;

/// Each of these texts is read as the row says.
fn texts_say(
    read: impl Fn(Global, &[u8]) -> Result<Vec<Element>, ImageFault>,
    rows: &[(&str, &str)],
) {
    for (text, says) in rows {
        assert_eq!(told(read(Global, text.as_bytes())), *says, "{text}");
    }
}

#[test]
fn ihex_rows() {
    texts_say(fustrelan::formats::ihex::read, &ihex::ROWS)
}

#[test]
fn srec_rows() {
    texts_say(fustrelan::formats::srec::read, &srec::ROWS)
}

/// What is read of a file, as text: each element as its address and bytes, ` 08000000:0102`, or the fault.
fn told(read: Result<Vec<Element>, ImageFault>) -> String {
    match read {
        Err(fault) => fault.to_string(),
        Ok(elements) => elements.iter().map(element_told).collect(),
    }
}

fn element_told(element: &Element) -> String {
    let mut text = format!(" {:08X}:", element.address());
    for byte in element.bytes() {
        let _ = write!(text, "{byte:02X}");
    }
    text
}
