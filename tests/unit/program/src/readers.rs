//! A reader that fails, and a writer that takes few bytes.

use std::io::{self, ErrorKind, Read, Write};

/// Fails at each read.
pub struct Failing;

impl Read for Failing {
    fn read(&mut self, _buf: &mut [u8]) -> io::Result<usize> {
        Err(io::Error::from(ErrorKind::Interrupted))
    }
}

/// Takes `left` bytes, one at each call, and then fails.
pub struct Refusing {
    pub left: usize,
    pub calls_after: usize,
}

impl Write for Refusing {
    fn write(&mut self, buf: &[u8]) -> io::Result<usize> {
        if self.left == 0 {
            self.calls_after += 1;
            return Err(io::Error::from(ErrorKind::Interrupted));
        }
        let taken = buf.len().min(1);
        self.left -= taken;
        Ok(taken)
    }

    fn flush(&mut self) -> io::Result<()> {
        Ok(())
    }
}
