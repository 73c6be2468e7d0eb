//! Memory that may be refused: a list, each of whose calls that takes memory says so by a result.

use alloc::vec;
use core::fmt;
use core::ops::{Deref, DerefMut};

/// The allocator of the program, as what takes memory is given it.
#[derive(Clone, Copy, Debug, Default)]
pub struct Global;

/// An allocation was refused.
#[derive(Clone, Copy, Debug, PartialEq, Eq)]
pub struct AllocError;

impl fmt::Display for AllocError {
    fn fmt(&self, f: &mut fmt::Formatter<'_>) -> fmt::Result {
        f.write_str("memory allocation failed")
    }
}

impl core::error::Error for AllocError {}

/// A list that grows.
#[derive(Debug, PartialEq, Eq)]
pub struct Vec<T>(vec::Vec<T>);

impl<T> Vec<T> {
    /// A list of nothing. It takes no memory.
    pub const fn new(_: Global) -> Vec<T> {
        Vec(vec::Vec::new())
    }

    /// Puts an item behind the last one.
    ///
    /// # Errors
    ///
    /// The memory was refused, and the list is as it was.
    pub fn push(&mut self, item: T) -> Result<(), AllocError> {
        self.0.try_reserve(1).map_err(|_| AllocError)?;
        self.0.push(item);
        Ok(())
    }

    /// Puts an item before the one that is at this place, or behind the last one.
    ///
    /// # Errors
    ///
    /// The memory was refused, and the list is as it was.
    ///
    /// # Panics
    ///
    /// The place is behind the end.
    pub fn insert(&mut self, at: usize, item: T) -> Result<(), AllocError> {
        self.0.try_reserve(1).map_err(|_| AllocError)?;
        self.0.insert(at, item);
        Ok(())
    }

    /// Takes all items from it, and keeps its memory.
    pub fn clear(&mut self) {
        self.0.clear();
    }

    /// Its items.
    pub fn as_slice(&self) -> &[T] {
        &self.0
    }

    /// It as a list of Rust's own.
    pub fn into_inner(self) -> vec::Vec<T> {
        self.0
    }
}

impl<T: Copy> Vec<T> {
    /// A list of these items.
    ///
    /// # Errors
    ///
    /// The memory was refused.
    pub fn from_slice(alloc: Global, items: &[T]) -> Result<Vec<T>, AllocError> {
        let mut made = Vec::new(alloc);
        made.extend_from_slice(items)?;
        Ok(made)
    }

    /// Puts items behind the last one.
    ///
    /// # Errors
    ///
    /// The memory was refused, and the list is as it was.
    pub fn extend_from_slice(&mut self, items: &[T]) -> Result<(), AllocError> {
        self.0.try_reserve(items.len()).map_err(|_| AllocError)?;
        self.0.extend_from_slice(items);
        Ok(())
    }

    /// Makes it so many items long, by this item behind the last one.
    ///
    /// # Errors
    ///
    /// The memory was refused, and the list is as it was.
    pub fn resize(&mut self, len: usize, item: T) -> Result<(), AllocError> {
        self.0.try_reserve(len.saturating_sub(self.0.len())).map_err(|_| AllocError)?;
        self.0.resize(len, item);
        Ok(())
    }
}

impl<T> Deref for Vec<T> {
    type Target = [T];

    fn deref(&self) -> &[T] {
        &self.0
    }
}

impl<T> DerefMut for Vec<T> {
    fn deref_mut(&mut self) -> &mut [T] {
        &mut self.0
    }
}
