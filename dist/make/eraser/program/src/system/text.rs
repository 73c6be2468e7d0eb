//! A text, each of whose calls that takes memory may be refused.

use super::alloc::{AllocError, Global};
use alloc::string;
use core::fmt::{self, Write};
use core::ops::Deref;

/// A text that grows.
#[derive(Debug, PartialEq, Eq)]
pub struct String(string::String);

impl String {
    /// A text of nothing. It takes no memory.
    pub const fn new(_: Global) -> String {
        String(string::String::new())
    }

    /// A copy of a text.
    ///
    /// # Errors
    ///
    /// The memory was refused.
    pub fn from_str(alloc: Global, text: &str) -> Result<String, AllocError> {
        let mut made = String::new(alloc);
        made.push_str(text)?;
        Ok(made)
    }

    /// The text of a format.
    ///
    /// # Errors
    ///
    /// The memory was refused.
    pub fn formatted(alloc: Global, words: fmt::Arguments<'_>) -> Result<String, AllocError> {
        let mut made = String::new(alloc);
        made.write_fmt(words).map_err(|_| AllocError)?;
        Ok(made)
    }

    /// Puts a text behind the end.
    ///
    /// # Errors
    ///
    /// The memory was refused, and the text is as it was.
    pub fn push_str(&mut self, more: &str) -> Result<(), AllocError> {
        self.0.try_reserve(more.len()).map_err(|_| AllocError)?;
        self.0.push_str(more);
        Ok(())
    }

    /// Puts a character behind the end.
    ///
    /// # Errors
    ///
    /// The memory was refused, and the text is as it was.
    pub fn push(&mut self, more: char) -> Result<(), AllocError> {
        self.push_str(more.encode_utf8(&mut [0; 4]))
    }

    /// It, as it is looked at.
    pub fn as_str(&self) -> &str {
        &self.0
    }
}

impl Deref for String {
    type Target = str;

    fn deref(&self) -> &str {
        &self.0
    }
}

impl fmt::Display for String {
    fn fmt(&self, f: &mut fmt::Formatter<'_>) -> fmt::Result {
        f.write_str(&self.0)
    }
}

impl Write for String {
    fn write_str(&mut self, text: &str) -> fmt::Result {
        self.push_str(text).map_err(|_| fmt::Error)
    }
}

/// What has a text.
pub trait ToText {
    /// Its text.
    ///
    /// # Errors
    ///
    /// The memory was refused.
    fn to_string(&self, alloc: Global) -> Result<String, AllocError>;
}

impl<T: fmt::Display> ToText for T {
    fn to_string(&self, alloc: Global) -> Result<String, AllocError> {
        String::formatted(alloc, format_args!("{self}"))
    }
}
