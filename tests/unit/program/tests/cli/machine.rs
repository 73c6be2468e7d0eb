//! A machine in memory: one folder, standard input and standard output.

use std::cell::RefCell;
use std::io::{self, ErrorKind};

/// What has a name in the folder.
#[derive(Clone, Copy, Debug, PartialEq, Eq)]
pub enum Kind {
    File,
    Link,
    /// Anything else, as a folder or a device.
    Other,
}

/// A name of the folder; the bytes of a link are the name that it leads to.
pub struct Entry {
    pub name: String,
    pub kind: Kind,
    pub bytes: Vec<u8>,
}

/// What the calls change.
pub struct State {
    pub folder: Vec<Entry>,
    /// The calls so far, each ended by `;`.
    pub calls: String,
    pub printed: Vec<u8>,
    /// What was printed on standard error.
    pub told: String,
    /// How many calls of printing were made.
    pub prints: usize,
    /// How many of them succeed.
    pub room: usize,
}

pub struct Machine {
    /// What standard input gives.
    pub input: &'static [u8],
    /// It is typed at a terminal.
    pub is_typed: bool,
    /// How many bytes standard input gives at a time, at most.
    pub piece: usize,
    /// The calls that fail, each time.
    pub failing: &'static str,
    pub state: RefCell<State>,
}

/// The place of a name in the folder.
pub fn place_in(folder: &[Entry], name: &str) -> io::Result<usize> {
    folder
        .iter()
        .position(|entry| entry.name == name)
        .ok_or(ErrorKind::NotFound.into())
}

/// The entry with this name.
pub fn entry_in<'f>(folder: &'f [Entry], name: &str) -> io::Result<&'f Entry> {
    Ok(&folder[place_in(folder, name)?])
}

impl Machine {
    /// A machine whose folder is empty.
    pub fn new(input: &'static [u8], failing: &'static str) -> Machine {
        let state = State {
            folder: Vec::new(),
            calls: String::new(),
            printed: Vec::new(),
            told: String::new(),
            prints: 0,
            room: if failing == "print" { 0 } else { usize::MAX },
        };
        Machine {
            input,
            is_typed: false,
            piece: usize::MAX,
            failing,
            state: RefCell::new(state),
        }
    }

    /// Records a call and its argument, and returns an error if the call is to fail.
    pub fn call(&self, name: &str, of: &str) -> io::Result<()> {
        self.state.borrow_mut().calls += &format!("{name}{of};");
        if self.failing.contains(name) {
            return Err(ErrorKind::PermissionDenied.into());
        }
        Ok(())
    }

    /// Puts a new name into the folder.
    pub fn put(&self, name: &str, kind: Kind, bytes: &[u8]) -> io::Result<()> {
        let mut state = self.state.borrow_mut();
        if place_in(&state.folder, name).is_ok() {
            return Err(ErrorKind::AlreadyExists.into());
        }
        state.folder.push(Entry {
            name: name.to_string(),
            kind,
            bytes: bytes.to_vec(),
        });
        Ok(())
    }

    /// Takes a name out of the folder.
    pub fn take(&self, name: &str) -> io::Result<Entry> {
        let mut state = self.state.borrow_mut();
        let place = place_in(&state.folder, name)?;
        Ok(state.folder.remove(place))
    }

    /// The names in the folder, each ended by `;`.
    pub fn names(&self) -> String {
        let state = self.state.borrow();
        state
            .folder
            .iter()
            .map(|entry| format!("{};", entry.name))
            .collect()
    }
}
