//! What a program does with a list, beside what the libraries do.

use super::{AllocError, Global, Vec};
use alloc::vec;
use core::ops::DerefMut;
use core::slice;
use std::io;

impl<T> Vec<T> {
    /// A list of nothing, with room for so many items.
    ///
    /// # Errors
    ///
    /// The memory was refused.
    pub fn with_capacity(_: Global, room: usize) -> Result<Vec<T>, AllocError> {
        let mut items = vec::Vec::new();
        items.try_reserve_exact(room).map_err(|_| AllocError)?;
        Ok(Vec(items))
    }

    /// Makes room for so many items more.
    ///
    /// # Errors
    ///
    /// The memory was refused, and the list is as it was.
    pub fn reserve(&mut self, more: usize) -> Result<(), AllocError> {
        self.0.try_reserve(more).map_err(|_| AllocError)
    }

    /// Puts an item into the room that `reserve` made.
    pub fn push_reserved(&mut self, item: T) {
        self.0.push(item);
    }

    /// Takes the last item away.
    pub fn pop(&mut self) -> Option<T> {
        self.0.pop()
    }

    /// Takes the item at a place away.
    ///
    /// # Panics
    ///
    /// There is none.
    pub fn remove(&mut self, at: usize) -> T {
        self.0.remove(at)
    }

    /// Takes the item at a place away, and puts the last one there.
    ///
    /// # Panics
    ///
    /// There is none.
    pub fn swap_remove(&mut self, at: usize) -> T {
        self.0.swap_remove(at)
    }

    /// Takes the items behind the first so many away.
    pub fn truncate(&mut self, len: usize) {
        self.0.truncate(len);
    }

    /// Its items, to be changed.
    pub fn as_mut_slice(&mut self) -> &mut [T] {
        self.0.deref_mut()
    }
}

impl<T> IntoIterator for Vec<T> {
    type Item = T;
    type IntoIter = vec::IntoIter<T>;

    fn into_iter(self) -> vec::IntoIter<T> {
        self.0.into_iter()
    }
}

impl<'a, T> IntoIterator for &'a Vec<T> {
    type Item = &'a T;
    type IntoIter = slice::Iter<'a, T>;

    fn into_iter(self) -> slice::Iter<'a, T> {
        self.0.iter()
    }
}

impl io::Write for Vec<u8> {
    fn write(&mut self, bytes: &[u8]) -> io::Result<usize> {
        self.extend_from_slice(bytes)?;
        Ok(bytes.len())
    }

    fn flush(&mut self) -> io::Result<()> {
        Ok(())
    }
}

impl From<AllocError> for io::Error {
    fn from(_: AllocError) -> io::Error {
        io::ErrorKind::OutOfMemory.into()
    }
}
