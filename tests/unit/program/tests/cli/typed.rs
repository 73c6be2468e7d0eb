//! Standard input of the machine in memory.

use dfu::system::io::IsTerminal;
use std::io::{self, Read};

/// What is still to be read, and whether it is typed at a terminal.
pub struct Typed {
    pub rest: &'static [u8],
    pub is_terminal: bool,
    /// How many bytes it gives at a time, at most.
    pub piece: usize,
}

impl Read for Typed {
    fn read(&mut self, buf: &mut [u8]) -> io::Result<usize> {
        let count = buf.len().min(self.piece);
        self.rest.read(&mut buf[..count])
    }
}

impl IsTerminal for Typed {
    fn is_terminal(&self) -> bool {
        self.is_terminal
    }
}
