//! The machine in memory as the system of the program.

use crate::machine::{Entry, Kind, Machine, entry_in, place_in};
use crate::opened::Opened;
use crate::typed::Typed;
use dfu::system::alloc::{AllocGlobal, Global};
use dfu::system::fs::{Metadata, OpenOptions, PathBuf};
use dfu::system::io::{Eprint, Input, Print};
use dfu::system::rt::Files;
use dfu::system::text;
use std::fmt::Display;
use std::io::{self, ErrorKind};

/// The machine, for the commands.
#[derive(Clone, Copy)]
pub struct Host<'m> {
    pub machine: &'m Machine,
}

impl AllocGlobal for Host<'_> {}

impl Print for Host<'_> {
    fn write_some(&self, bytes: &[u8]) -> io::Result<usize> {
        let mut state = self.machine.state.borrow_mut();
        if state.prints >= state.room {
            return Err(ErrorKind::BrokenPipe.into());
        }
        state.prints += 1;
        state.printed.extend_from_slice(bytes);
        Ok(bytes.len())
    }
}

impl Eprint for Host<'_> {
    fn eprint<D: Display>(&self, value: D) -> io::Result<()> {
        if self.machine.failing == "eprint" {
            return Err(ErrorKind::BrokenPipe.into());
        }
        self.machine.state.borrow_mut().told += &value.to_string();
        Ok(())
    }
}

impl Input for Host<'_> {
    type Reader = Typed;

    fn reader(&self) -> Typed {
        Typed {
            rest: self.machine.input,
            is_terminal: self.machine.is_typed,
            piece: self.machine.piece,
        }
    }
}

impl Host<'_> {
    fn look(&self, path: &str) -> io::Result<Kind> {
        let state = self.machine.state.borrow();
        Ok(entry_in(&state.folder, path)?.kind)
    }

    /// What a look at a name finds.
    fn found(&self, path: &str) -> io::Result<Metadata> {
        self.look(path)?;
        let state = self.machine.state.borrow();
        let number = place_in(&state.folder, path)?;
        Ok(metadata_of(&state.folder[number], number))
    }

    /// What a link has.
    fn target(&self, path: &str) -> io::Result<String> {
        let state = self.machine.state.borrow();
        let entry = entry_in(&state.folder, path)?;
        String::from_utf8(entry.bytes.clone()).map_err(|_| ErrorKind::InvalidData.into())
    }

    /// The name that a link leads to, relative to the link's folder.
    fn led_to(&self, link: &str) -> io::Result<String> {
        let target = self.target(link)?;
        match link.rsplit_once('/') {
            Some((folder, _)) if !target.starts_with('/') => Ok(format!("{folder}/{target}")),
            _ => Ok(target),
        }
    }

    /// The end of the links that begin with this name.
    fn end_of(&self, path: &str) -> io::Result<String> {
        let mut name = path.to_string();
        for _ in 0..50 {
            match self.look(&name) {
                Ok(Kind::Link) => name = self.led_to(&name)?,
                _ => return Ok(name),
            }
        }
        Err(dfu::system::io::too_many_links())
    }
}

/// What a look at the file of this number finds: the kinds in octal, as Unix has them, with the usual rights.
fn metadata_of(entry: &Entry, number: usize) -> Metadata {
    let mode = match entry.kind {
        Kind::File => 0o100_644,
        Kind::Link => 0o120_777,
        Kind::Other => 0o040_755,
    };
    Metadata {
        mode,
        place: (0, number as u64),
        owner: (0, 0),
        bytes: entry.bytes.len() as u64,
    }
}

impl<'m> Files for Host<'m> {
    type File = Opened<'m>;

    fn open_file(&self, how: &OpenOptions, path: &str) -> io::Result<Opened<'m>> {
        if how.create_new {
            self.machine
                .call("create", &format!(" {path} {:o}", how.mode))?;
            self.machine.put(path, Kind::File, b"")?;
        } else {
            self.machine.call("open", &format!(" {path}"))?;
            if how.write {
                return Err(ErrorKind::Unsupported.into());
            }
            self.look(path)?;
        }
        Ok(Opened {
            machine: self.machine,
            name: path.to_string(),
            place: 0,
        })
    }

    fn metadata(&self, path: &str) -> io::Result<Metadata> {
        self.machine.call("see", &format!(" {path}"))?;
        self.found(&self.end_of(path)?)
    }

    fn symlink_metadata(&self, path: &str) -> io::Result<Metadata> {
        self.machine.call("look", &format!(" {path}"))?;
        self.found(path)
    }

    fn read_link(&self, path: &str) -> io::Result<PathBuf> {
        self.machine.call("follow", &format!(" {path}"))?;
        Ok(PathBuf(text::String::from_str(
            Global,
            &self.target(path)?,
        )?))
    }

    fn rename(&self, from: &str, to: &str) -> io::Result<()> {
        self.machine.call("rename", &format!(" {from} {to}"))?;
        let moved = self.machine.take(from)?;
        let _ = self.machine.take(to);
        self.machine.put(to, moved.kind, &moved.bytes)
    }

    fn remove_file(&self, path: &str) -> io::Result<()> {
        self.machine.call("remove", &format!(" {path}"))?;
        self.machine.take(path).map(|_| ())
    }
}
