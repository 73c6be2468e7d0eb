//! An open file of the machine in memory.

use crate::machine::{Machine, entry_in, place_in};
use dfu::files::Owned;
use dfu::system::fs::{OpenFile, Permissions};
use dfu::system::io::IsTerminal;
use std::io::{self, Read, Write};
use std::os::unix::fs::PermissionsExt;

/// An open file: its name, and the place of the next read.
pub struct Opened<'m> {
    pub machine: &'m Machine,
    pub name: String,
    pub place: usize,
}

impl Read for Opened<'_> {
    fn read(&mut self, buf: &mut [u8]) -> io::Result<usize> {
        let state = self.machine.state.borrow();
        let entry = entry_in(&state.folder, &self.name)?;
        let mut rest = entry.bytes.get(self.place..).unwrap_or(&[]);
        let count = rest.read(buf)?;
        self.place += count;
        Ok(count)
    }
}

impl Write for Opened<'_> {
    fn write(&mut self, buf: &[u8]) -> io::Result<usize> {
        self.machine.call("write", "")?;
        let mut state = self.machine.state.borrow_mut();
        let place = place_in(&state.folder, &self.name)?;
        state.folder[place].bytes.extend_from_slice(buf);
        Ok(buf.len())
    }

    fn flush(&mut self) -> io::Result<()> {
        Ok(())
    }
}

impl IsTerminal for Opened<'_> {
    fn is_terminal(&self) -> bool {
        false
    }
}

impl Owned for Opened<'_> {
    fn set_owner(&self, _user: u32, _group: u32) -> io::Result<()> {
        self.machine.call("owner", "")
    }
}

impl OpenFile for Opened<'_> {
    fn sync_all(&self) -> io::Result<()> {
        self.machine.call("sync", "")
    }

    fn set_permissions(&self, permissions: Permissions) -> io::Result<()> {
        self.machine
            .call("rights", &format!(" {:o}", permissions.mode()))
    }
}
