//! The words of a command line.

use dfu::system::alloc::{AllocError, Global};
use dfu::system::text::String;

/// The words of a line, as the program gets them.
pub fn words_of(line: &str) -> Result<Vec<String>, AllocError> {
    line.split_whitespace()
        .map(|word| String::from_str(Global, word))
        .collect()
}
