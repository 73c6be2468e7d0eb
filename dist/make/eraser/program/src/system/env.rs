//! The words of the command line.

use super::alloc::{AllocError, Global};
use super::text::String;
use core::str;
use fustrelan::memory::Vec;
use std::io;

/// Why a word was not put into a buffer.
#[derive(Clone, Copy, Debug, PartialEq, Eq)]
pub enum FillError {
    /// There is no such word.
    NotPresent,
    /// The word is longer than the buffer.
    TooLong,
}

/// What has the words.
pub trait Env {
    /// The word at a place, or None if there are fewer. That at 0 is the program's name.
    fn word(&self, place: usize) -> Option<&[u8]>;

    /// Puts a word at the front of the buffer: its length.
    ///
    /// # Errors
    ///
    /// `NotPresent` if there are fewer words; `TooLong` if it is longer than the buffer.
    fn arg(&self, place: usize, buffer: &mut [u8]) -> Result<usize, FillError> {
        let word = self.word(place).ok_or(FillError::NotPresent)?;
        buffer.get_mut(..word.len()).ok_or(FillError::TooLong)?.copy_from_slice(word);
        Ok(word.len())
    }
}

/// The words, in their order.
///
/// # Errors
///
/// `InvalidData` if one is no UTF-8; `OutOfMemory` if the memory for them was refused.
pub fn args<R: Env>(rt: &R) -> io::Result<impl Iterator<Item = String> + use<R>> {
    let mut words = Vec::new(Global);
    while let Some(word) = rt.word(words.len()) {
        let Ok(text) = str::from_utf8(word) else {
            return Err(io::ErrorKind::InvalidData.into());
        };
        words.push(text_of(text)?)?;
    }
    Ok(words.into_iter())
}

fn text_of(text: &str) -> Result<String, AllocError> {
    String::from_str(Global, text)
}
