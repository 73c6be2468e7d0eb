// Of crates/dfu_suffix/src/writing.rt, whose contracts are taken away.

//! Writes a complete text. `write_whole` isn't inlined, because the other crates call it often.

use std::io::Write;

/// Fault of a writer that failed, or accepted none of the remaining bytes.
#[derive(Clone, Copy, Debug, PartialEq, Eq)]
pub struct OutputError;

/// Writes the whole text, and doesn't flush the writer.
///
/// # Errors
///
/// OutputError at the first error of the writer, without a retry, and if the writer accepts none of the remaining bytes.
#[inline(never)]
pub fn write_whole<W: Write>(writer: &mut W, text: &[u8]) -> Result<(), OutputError> {
    let mut rest = text;
    while !rest.is_empty() {
        match writer.write(rest) {
            Ok(0) => return Err(OutputError),
            Ok(taken) => {
                let (_, left) = rest.split_at(taken);
                rest = left;
            }
            Err(_) => return Err(OutputError),
        }
    }
    Ok(())
}
