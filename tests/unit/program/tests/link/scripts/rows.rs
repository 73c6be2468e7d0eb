//! The text of a row, a reader that gives it in portions, and what a row prints with its trace.

use dfu::link::{ScriptFault, script_traced};
use fustrelan::memory::Global;
use std::cell::RefCell;
use std::io::{self, ErrorKind, Read, Write};
use unit_program::Outcome;

/// Payload FFFFFFFFh, identifiers FFFFh.
const FOUR_ONES: &[u8] = b"ffffffffffffffffffff00015546441071c8510c";

/// In a row `/` ends a line, and W is the digits of this file.
pub fn text_of(row: &str) -> Vec<u8> {
    let mut text = Vec::new();
    for byte in row.as_bytes() {
        match byte {
            b'/' => text.push(b'\n'),
            b'W' => text.extend_from_slice(FOUR_ONES),
            byte => text.push(*byte),
        }
    }
    text
}

/// Gives at most so many bytes of a text at each call.
pub struct Portions<'t> {
    pub rest: &'t [u8],
    pub most: usize,
}

impl Read for Portions<'_> {
    fn read(&mut self, buf: &mut [u8]) -> io::Result<usize> {
        let given = self.rest.len().min(buf.len()).min(self.most);
        let (first, rest) = self.rest.split_at(given);
        buf[..given].copy_from_slice(first);
        self.rest = rest;
        Ok(given)
    }
}

/// A writer that shares its bytes with another one, so that a text and its trace are in their order.
struct Both<'b>(&'b RefCell<Vec<u8>>);

impl Write for Both<'_> {
    fn write(&mut self, buf: &[u8]) -> io::Result<usize> {
        match self.0.try_borrow_mut() {
            Ok(mut bytes) => bytes.extend_from_slice(buf),
            Err(_) => return Err(io::Error::from(ErrorKind::Other)),
        }
        Ok(buf.len())
    }

    fn flush(&mut self) -> io::Result<()> {
        Ok(())
    }
}

/// How a script ended, whether each line of its trace is out, and the text with the trace.
pub type Told = (Result<(), ScriptFault>, bool, Vec<u8>);

/// How a row ends, and what it prints with its trace.
pub fn told(row: &str) -> Outcome<Told> {
    let text = text_of(row);
    let bytes = RefCell::new(Vec::new());
    let (end, is_traced) = script_traced(
        Global,
        text.as_slice(),
        &mut Both(&bytes),
        &mut Both(&bytes),
    );
    Ok((end, is_traced, bytes.into_inner()))
}
