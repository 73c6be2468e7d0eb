//! Files and folders, over a value that has them.

use super::fs::{Metadata, OpenFile, OpenOptions, PathBuf};
use std::io::{Read, Result, Write};

/// What opens files, and looks at names. Each error is the system's.
pub trait Files {
    /// A file that was opened.
    type File: Read + Write + OpenFile;

    /// Opens a file.
    ///
    /// # Errors
    ///
    /// `AlreadyExists` if it was to be new; others as the system says.
    fn open_file(&self, how: &OpenOptions, path: &str) -> Result<Self::File>;

    /// What a name leads to, behind symbolic links.
    ///
    /// # Errors
    ///
    /// `NotFound` if it leads to nothing; others as the system says.
    fn metadata(&self, path: &str) -> Result<Metadata>;

    /// What has a name, which may be a symbolic link.
    ///
    /// # Errors
    ///
    /// `NotFound` if nothing has it; others as the system says.
    fn symlink_metadata(&self, path: &str) -> Result<Metadata>;

    /// Where a symbolic link leads.
    ///
    /// # Errors
    ///
    /// `InvalidData` if the name there is no UTF-8; others as the system says.
    fn read_link(&self, path: &str) -> Result<PathBuf>;

    /// Gives a file another name, in place of what has it.
    ///
    /// # Errors
    ///
    /// As the system says.
    fn rename(&self, from: &str, to: &str) -> Result<()>;

    /// Takes a name away.
    ///
    /// # Errors
    ///
    /// As the system says.
    fn remove_file(&self, path: &str) -> Result<()>;
}
