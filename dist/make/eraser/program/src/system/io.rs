//! Reading and writing, as Rust has them; and the standard streams, over a value that has them.

pub use super::buffer::{BufWriter, IntoInnerError};
pub use super::reason::{Reason, reason};
use core::fmt::Display;
pub use std::io::{Error, ErrorKind, Read, Result, Write};

/// The system's number of the error that symbolic links go round: Linux's, or else that of BSD and macOS.
const TOO_MANY_LINKS: i32 = if cfg!(any(target_os = "linux", target_os = "android")) { 40 } else { 62 };

/// Symbolic links go round. Rust has no name for this kind yet.
pub fn too_many_links() -> Error {
    Error::from_raw_os_error(TOO_MANY_LINKS)
}

/// What has a standard input.
pub trait Input {
    /// It, as something that is read.
    type Reader: Read + IsTerminal;

    /// It.
    fn reader(&self) -> Self::Reader;
}

/// What has a standard output. Nothing is held back: what is written is out when the call ends.
pub trait Print {
    /// Writes bytes, some at least if there are any: how many.
    ///
    /// # Errors
    ///
    /// That of the system.
    fn write_some(&self, bytes: &[u8]) -> Result<usize>;

    /// Writes the text of a value.
    ///
    /// # Errors
    ///
    /// That of the system; a part may be out.
    fn print<D: Display>(&self, value: D) -> Result<()>
    where
        Self: Sized,
    {
        write!(writer(self), "{value}")
    }
}

/// What has a standard error.
pub trait Eprint {
    /// Writes the text of a value.
    ///
    /// # Errors
    ///
    /// That of the system; a part may be out.
    fn eprint<D: Display>(&self, value: D) -> Result<()>;
}

/// What may be a terminal.
pub trait IsTerminal {
    /// Whether it is one.
    fn is_terminal(&self) -> bool;
}

impl IsTerminal for std::fs::File {
    fn is_terminal(&self) -> bool {
        std::io::IsTerminal::is_terminal(self)
    }
}

/// A writer to the standard output.
pub struct Printer<'r, R: Print>(&'r R);

/// A writer to the standard output.
pub fn writer<R: Print>(rt: &R) -> Printer<'_, R> {
    Printer(rt)
}

impl<R: Print> Write for Printer<'_, R> {
    fn write(&mut self, bytes: &[u8]) -> Result<usize> {
        self.0.write_some(bytes)
    }

    fn flush(&mut self) -> Result<()> {
        Ok(())
    }
}
