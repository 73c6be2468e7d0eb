//! Writers that take few bytes at a time, stop or fail, and count how often they are called.

use super::readers::{Calls, unstopped};
use std::io::{self, Write};

/// Takes at most `step` bytes a call, up to the call that stops. A flush counts as a call.
pub struct Narrow {
    pub taken: Vec<u8>,
    pub step: usize,
    pub calls: Calls,
}

/// Takes all, at most `step` bytes a call.
pub fn taking(step: usize) -> Narrow {
    Narrow {
        taken: Vec::new(),
        step,
        calls: unstopped(),
    }
}

impl Write for Narrow {
    fn write(&mut self, buf: &[u8]) -> io::Result<usize> {
        if self.calls.is_stopped()? {
            return Ok(0);
        }
        let most = buf.len().min(self.step);
        self.taken.extend_from_slice(&buf[..most]);
        Ok(most)
    }

    fn flush(&mut self) -> io::Result<()> {
        self.calls.made += 1;
        Ok(())
    }
}
