//! Files, as the program asks for them.

use super::rt::Files;
use super::text::String;
pub use std::fs::{File, Permissions};
use std::io;
use std::os::unix::fs as unix;

/// How a file is opened.
#[derive(Clone, Copy, Debug)]
pub struct OpenOptions {
    /// Whether it is written, and not read.
    pub write: bool,
    /// Whether it has to be new.
    pub create_new: bool,
    /// The rights of a new file, before the system's mask.
    pub mode: u32,
}

impl OpenOptions {
    /// A file that is there is read.
    #[allow(clippy::new_without_default)]
    pub fn new() -> OpenOptions {
        OpenOptions { write: false, create_new: false, mode: 0o666 }
    }

    /// Whether it is written.
    pub fn write(&mut self, is_on: bool) -> &mut OpenOptions {
        self.write = is_on;
        self
    }

    /// Whether it has to be new.
    pub fn create_new(&mut self, is_on: bool) -> &mut OpenOptions {
        self.create_new = is_on;
        self
    }

    /// Opens a file so.
    ///
    /// # Errors
    ///
    /// That of the system.
    pub fn open<R: Files>(&self, rt: &R, path: &str) -> io::Result<R::File> {
        rt.open_file(self, path)
    }
}

/// Options that Unix has.
pub trait OpenOptionsExt {
    /// The rights of a new file.
    fn mode(&mut self, mode: u32) -> &mut Self;
}

impl OpenOptionsExt for OpenOptions {
    fn mode(&mut self, mode: u32) -> &mut OpenOptions {
        self.mode = mode;
        self
    }
}

/// What a look at a name found.
#[derive(Clone, Copy, Debug)]
pub struct Metadata {
    /// The kind and the rights, as Unix has them in one number.
    pub mode: u32,
    /// The device and the number of the file on it.
    pub place: (u64, u64),
    /// The user and the group.
    pub owner: (u32, u32),
    /// How many bytes it has.
    pub bytes: u64,
}

const KINDS: u32 = 0o170_000;
const REGULAR: u32 = 0o100_000;
const LINK: u32 = 0o120_000;

impl Metadata {
    /// How many bytes it has.
    #[allow(clippy::len_without_is_empty)]
    pub fn len(&self) -> u64 {
        self.bytes
    }

    /// Whether it is a regular file.
    pub fn is_file(&self) -> bool {
        self.mode & KINDS == REGULAR
    }

    /// Whether it is a symbolic link.
    pub fn is_symlink(&self) -> bool {
        self.mode & KINDS == LINK
    }
}

impl From<std::fs::Metadata> for Metadata {
    fn from(found: std::fs::Metadata) -> Metadata {
        use unix::MetadataExt;
        Metadata { mode: found.mode(), place: (found.dev(), found.ino()), owner: (found.uid(), found.gid()), bytes: found.len() }
    }
}

/// What Unix knows of a file.
pub trait MetadataExt {
    /// The kind and the rights.
    fn mode(&self) -> u32;
    /// The device that it is on.
    fn dev(&self) -> u64;
    /// Its number on that device.
    fn ino(&self) -> u64;
    /// The user that it belongs to.
    fn uid(&self) -> u32;
    /// The group that it belongs to.
    fn gid(&self) -> u32;
}

impl MetadataExt for Metadata {
    fn mode(&self) -> u32 {
        self.mode
    }

    fn dev(&self) -> u64 {
        self.place.0
    }

    fn ino(&self) -> u64 {
        self.place.1
    }

    fn uid(&self) -> u32 {
        self.owner.0
    }

    fn gid(&self) -> u32 {
        self.owner.1
    }
}

/// A file that was opened.
pub trait OpenFile {
    /// Puts all that was written on the disk.
    ///
    /// # Errors
    ///
    /// That of the system.
    fn sync_all(&self) -> io::Result<()>;

    /// Gives it these rights.
    ///
    /// # Errors
    ///
    /// That of the system.
    fn set_permissions(&self, permissions: Permissions) -> io::Result<()>;
}

impl OpenFile for File {
    fn sync_all(&self) -> io::Result<()> {
        File::sync_all(self)
    }

    fn set_permissions(&self, permissions: Permissions) -> io::Result<()> {
        File::set_permissions(self, permissions)
    }
}

/// A path that takes memory. It is a text.
pub struct PathBuf(pub String);

impl PathBuf {
    /// It, as it is looked at.
    pub fn as_path(&self) -> &PathBuf {
        self
    }

    /// Its text.
    pub fn as_str(&self) -> &str {
        &self.0
    }
}

/// Opens a file to read it.
///
/// # Errors
///
/// That of the system.
pub fn open<R: Files>(rt: &R, path: &str) -> io::Result<R::File> {
    rt.open_file(&OpenOptions::new(), path)
}

/// What a name leads to.
///
/// # Errors
///
/// That of the system.
pub fn metadata<R: Files>(rt: &R, path: &str) -> io::Result<Metadata> {
    rt.metadata(path)
}

/// What has a name.
///
/// # Errors
///
/// That of the system.
pub fn symlink_metadata<R: Files>(rt: &R, path: &str) -> io::Result<Metadata> {
    rt.symlink_metadata(path)
}

/// Where a symbolic link leads.
///
/// # Errors
///
/// That of the system.
pub fn read_link<R: Files>(rt: &R, path: &str) -> io::Result<PathBuf> {
    rt.read_link(path)
}

/// Takes a name away.
///
/// # Errors
///
/// That of the system.
pub fn remove_file<R: Files>(rt: &R, path: &str) -> io::Result<()> {
    rt.remove_file(path)
}

/// Gives a file another name.
///
/// # Errors
///
/// That of the system.
pub fn rename<R: Files>(rt: &R, from: &str, to: &str) -> io::Result<()> {
    rt.rename(from, to)
}
