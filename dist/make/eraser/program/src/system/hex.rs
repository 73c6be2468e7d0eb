//! Hexadecimal digits, as the package hex has them, with memory that may be refused.

use super::alloc::{AllocError, Global};
use super::text::String;
use fustrelan::memory::Vec;
pub use ::hex::{decode_to_slice, encode_to_slice};

/// Why a text is no bytes.
#[derive(Clone, Copy, Debug, PartialEq, Eq)]
pub enum FromHexError {
    /// A character is no digit: it, and its place.
    InvalidHexCharacter { c: char, index: usize },
    /// The last byte has one digit.
    OddLength,
    /// The digits are more or fewer than two for each byte.
    InvalidStringLength,
    /// The memory was refused.
    OutOfMemory,
}

impl From<::hex::FromHexError> for FromHexError {
    fn from(error: ::hex::FromHexError) -> FromHexError {
        match error {
            ::hex::FromHexError::InvalidHexCharacter { c, index } => FromHexError::InvalidHexCharacter { c, index },
            ::hex::FromHexError::OddLength => FromHexError::OddLength,
            ::hex::FromHexError::InvalidStringLength => FromHexError::InvalidStringLength,
        }
    }
}

/// The bytes of digits.
///
/// # Errors
///
/// `OddLength`; `OutOfMemory`; `InvalidHexCharacter`.
pub fn decode(alloc: Global, digits: impl AsRef<[u8]>) -> Result<Vec<u8>, FromHexError> {
    let digits = digits.as_ref();
    if digits.len() % 2 != 0 {
        return Err(FromHexError::OddLength);
    }
    let mut bytes = Vec::new(alloc);
    bytes.resize(digits.len() / 2, 0).map_err(|_| FromHexError::OutOfMemory)?;
    decode_to_slice(digits, &mut bytes)?;
    Ok(bytes)
}

/// The digits of bytes.
///
/// # Errors
///
/// The memory was refused.
pub fn encode(alloc: Global, bytes: &[u8]) -> Result<String, AllocError> {
    let mut text = String::new(alloc);
    for byte in bytes {
        let mut digits = [0; 2];
        let _ = encode_to_slice([*byte], &mut digits);
        text.push_str(core::str::from_utf8(&digits).unwrap_or("??"))?;
    }
    Ok(text)
}
