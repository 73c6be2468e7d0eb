//! A writer with a buffer before it, whose memory may be refused.

use super::alloc::{AllocError, Global};
use fustrelan::memory::Vec;
use std::io::{Error, Result, Write};

/// A writer with a buffer before it. `into_inner` and `flush` write what it holds; dropped, it writes nothing more.
pub struct BufWriter<W: Write> {
    writer: W,
    held: Vec<u8>,
    room: usize,
}

/// What the buffer held could not be written.
pub struct IntoInnerError<W: Write> {
    buffer: BufWriter<W>,
    error: Error,
}

impl<W: Write> IntoInnerError<W> {
    /// The buffer, with what is not out yet.
    pub fn into_inner(self) -> BufWriter<W> {
        self.buffer
    }

    /// Why it could not be written.
    pub fn error(&self) -> &Error {
        &self.error
    }
}

impl<W: Write> BufWriter<W> {
    /// A buffer of so many bytes.
    ///
    /// # Errors
    ///
    /// Its memory was refused.
    pub fn with_capacity(_: Global, room: usize, writer: W) -> core::result::Result<BufWriter<W>, AllocError> {
        let held = Vec::with_capacity(Global, room)?;
        Ok(BufWriter { writer, held, room })
    }

    /// The writer, once all is out.
    ///
    /// # Errors
    ///
    /// What it held could not be written.
    pub fn into_inner(mut self) -> core::result::Result<W, IntoInnerError<W>> {
        match self.write_held() {
            Ok(()) => Ok(self.writer),
            Err(error) => Err(IntoInnerError { buffer: self, error }),
        }
    }

    /// The writer, and what is not out yet.
    pub fn into_parts(self) -> (W, Vec<u8>) {
        (self.writer, self.held)
    }

    /// Writes what it holds. What is out is held no longer, also if the writer fails then.
    fn write_held(&mut self) -> Result<()> {
        let mut out = 0;
        let mut answer = Ok(());
        while out < self.held.len() && answer.is_ok() {
            match self.writer.write(&self.held[out..]) {
                Ok(0) => answer = Err(std::io::ErrorKind::WriteZero.into()),
                Ok(count) => out += count,
                Err(error) if error.kind() == std::io::ErrorKind::Interrupted => {}
                Err(error) => answer = Err(error),
            }
        }
        self.held.copy_within(out.., 0);
        self.held.truncate(self.held.len() - out);
        answer
    }
}

impl<W: Write> Write for BufWriter<W> {
    fn write(&mut self, bytes: &[u8]) -> Result<usize> {
        if self.held.len() + bytes.len() > self.room {
            self.write_held()?;
        }
        if bytes.len() >= self.room {
            return self.writer.write(bytes);
        }
        // There is room, and so this takes no memory.
        self.held.extend_from_slice(bytes)?;
        Ok(bytes.len())
    }

    fn flush(&mut self) -> Result<()> {
        self.write_held()?;
        self.writer.flush()
    }
}
