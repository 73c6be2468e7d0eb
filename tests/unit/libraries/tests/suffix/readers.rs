//! Readers that give few bytes at a time, stop or fail, and count how often they are asked.

use std::io::{self, ErrorKind, Read};

/// Counts calls. The call with the number `stop`, counted from 0, fails, or moves no bytes.
pub struct Calls {
    pub stop: usize,
    pub fails: bool,
    pub made: usize,
}

/// No call yet, and none that stops.
pub fn unstopped() -> Calls {
    Calls {
        stop: usize::MAX,
        fails: false,
        made: 0,
    }
}

impl Calls {
    /// Counts a call. Returns whether it moves no bytes, or the error if it fails.
    pub fn is_stopped(&mut self) -> io::Result<bool> {
        let call = self.made;
        self.made = call + 1;
        if call == self.stop && self.fails {
            return Err(io::Error::from(ErrorKind::Interrupted));
        }
        Ok(call == self.stop)
    }
}

/// Gives at most `step` bytes a call, up to the call that stops.
pub struct Pieces<'a> {
    pub left: &'a [u8],
    pub step: usize,
    pub calls: Calls,
}

/// All of these bytes, at most `step` a call.
pub fn in_pieces(bytes: &[u8], step: usize) -> Pieces<'_> {
    Pieces {
        left: bytes,
        step,
        calls: unstopped(),
    }
}

impl<'a> Read for Pieces<'a> {
    fn read(&mut self, buf: &mut [u8]) -> io::Result<usize> {
        if self.calls.is_stopped()? {
            return Ok(0);
        }
        let given = self.left.len().min(self.step).min(buf.len());
        let (front, rest) = self.left.split_at(given);
        buf[..given].copy_from_slice(front);
        self.left = rest;
        Ok(given)
    }
}
