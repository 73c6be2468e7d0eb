//! The system itself: the words, streams and files of the process.
#![allow(unsafe_code)]

use super::alloc::AllocGlobal;
use super::env::Env;
use super::fs::{Metadata, OpenOptions, PathBuf};
use super::io::{Eprint, Input, Print};
use super::rt::Files;
use super::text::String;
use core::ffi::{CStr, c_char, c_int};
use core::fmt::Display;
use core::mem::ManuallyDrop;
use std::fs::File;
use std::io::{self, ErrorKind, Read, Write};
use std::os::fd::FromRawFd;
use std::os::unix::fs::OpenOptionsExt;

/// The system.
#[derive(Clone, Copy)]
pub struct Machine {
    count: usize,
    words: *const *const c_char,
}

/// A standard stream. It is not closed.
pub struct Stream(ManuallyDrop<File>);

const INPUT: c_int = 0;
const OUTPUT: c_int = 1;
const ERRORS: c_int = 2;

/// The standard stream with this number, which may be closed: then each call fails.
fn stream(number: c_int) -> Stream {
    // SAFETY: nothing else of the program owns the number, and it is not closed here.
    Stream(ManuallyDrop::new(unsafe { File::from_raw_fd(number) }))
}

unsafe extern "C" {
    fn signal(number: c_int, handler: usize) -> usize;
}

const SIGPIPE: c_int = 13;
const IGNORE: usize = 1;

impl Machine {
    /// The system, with the words that `main` is given. A pipe that nobody reads is an error from now on, and no signal.
    ///
    /// # Safety
    ///
    /// There are so many words, each ends with a 0, and they stay as long as the program runs.
    pub unsafe fn new(count: c_int, words: *const *const c_char) -> Machine {
        // SAFETY: ignoring a signal calls nothing.
        unsafe { signal(SIGPIPE, IGNORE) };
        Machine { count: usize::try_from(count).unwrap_or(0), words }
    }

    /// The standard error.
    pub fn stderr(&self) -> Stream {
        stream(ERRORS)
    }
}

impl AllocGlobal for Machine {}

impl Env for Machine {
    fn word(&self, place: usize) -> Option<&[u8]> {
        // SAFETY: `new` asks for so many words, each with a 0 at its end.
        (place < self.count).then(|| unsafe { CStr::from_ptr(*self.words.add(place)) }.to_bytes())
    }
}

impl Read for Stream {
    fn read(&mut self, buffer: &mut [u8]) -> io::Result<usize> {
        self.0.read(buffer)
    }
}

impl super::io::IsTerminal for Stream {
    fn is_terminal(&self) -> bool {
        io::IsTerminal::is_terminal(&*self.0)
    }
}

impl Input for Machine {
    type Reader = Stream;

    fn reader(&self) -> Stream {
        stream(INPUT)
    }
}

impl Print for Machine {
    fn write_some(&self, bytes: &[u8]) -> io::Result<usize> {
        stream(OUTPUT).0.write(bytes)
    }
}

impl Eprint for Machine {
    fn eprint<D: Display>(&self, value: D) -> io::Result<()> {
        write!(stream(ERRORS).0, "{value}")
    }
}

impl Files for Machine {
    type File = File;

    fn open_file(&self, how: &OpenOptions, path: &str) -> io::Result<File> {
        File::options().read(!how.write).write(how.write).create_new(how.create_new).mode(how.mode).open(path)
    }

    fn metadata(&self, path: &str) -> io::Result<Metadata> {
        std::fs::metadata(path).map(Metadata::from)
    }

    fn symlink_metadata(&self, path: &str) -> io::Result<Metadata> {
        std::fs::symlink_metadata(path).map(Metadata::from)
    }

    fn read_link(&self, path: &str) -> io::Result<PathBuf> {
        let found = std::fs::read_link(path)?;
        let text = found.to_str().ok_or(ErrorKind::InvalidData)?;
        Ok(PathBuf(String::from_str(self.alloc(), text)?))
    }

    fn rename(&self, from: &str, to: &str) -> io::Result<()> {
        std::fs::rename(from, to)
    }

    fn remove_file(&self, path: &str) -> io::Result<()> {
        std::fs::remove_file(path)
    }
}
