// Of crates/dfu_slots/src/changes.rt, whose contracts are taken away.

//! The calls that change a medium: `begin`, `put` and `commit`.

use crate::slots::places::look;
use crate::slots::{Medium, PutFault, Slots, steps};

impl<M: Medium> Slots<M> {
    /// Closes the gate of the spare slot, so that `put` may write to its data. On a medium with sectors it erases the gate's sector. A
    /// closed gate is neither written nor erased. Discards the bytes put before, even if the call returns an error: `put_end` is 0.
    ///
    /// The active image stays, even after an error.
    ///
    /// # Errors
    ///
    /// `Failed` if the write failed; `NotVerified` if the write returned Ok but other bytes were read back.
    pub fn begin(&mut self) -> Result<(), PutFault> {
        steps::begin(&mut self.medium, &mut self.puts, self.places)
    }

    /// Puts up to 4,096 bytes into the data of the spare slot. `at` must be `put_end`, the end of the bytes put before.
    ///
    /// Only whole units are written, in at most two writes. The first write completes the unit that the bytes held back begin, if `bytes`
    /// fill it. The second writes all other whole units. The rest, less than a unit, is held back until a later `put` or `commit`. On a
    /// medium with units of one byte nothing is held back, and a `put` makes one write, or none if `bytes` is empty. Before each write the
    /// sectors that begin in its range are erased.
    ///
    /// The active image stays, even after an error.
    ///
    /// # Errors
    ///
    /// `NotBegun` if the spare's gate is open; `TooLarge` if the bytes end beyond the capacity; `Failed` if a write failed, and
    /// `NotVerified` if a write returned Ok but other bytes were read back. The errors are checked in this order. The first two change
    /// nothing; after the others the bytes put are discarded, and `put_end` is 0.
    ///
    /// # What the caller must keep to
    ///
    /// - `at` is `put_end`.
    /// - There are at most 4,096 bytes.
    pub fn put(&mut self, at: u32, bytes: &[u8]) -> Result<(), PutFault> {
        debug_assert!(at == self.put_end());
        debug_assert!(bytes.len() <= 4096);
        steps::put(&mut self.medium, &mut self.puts, self.places, at, bytes)
    }

    /// Activates the image that consists of the first `len` bytes put; `len` is at most `put_end`. The slot that was active becomes the
    /// spare. Bytes held back are written first, with zeros up to the end of their unit. On a medium with sectors the header's sector is
    /// erased before the header is written, and the gate's sector before the gate is written.
    ///
    /// After `Failed` and `NotVerified` the active image is the old one or the whole new one; `active_len` and `read_active` show which.
    ///
    /// # Errors
    ///
    /// `NotBegun` if the spare's gate is open, with nothing changed; `Failed` if a write failed, and `NotVerified` if a write returned Ok
    /// but other bytes were read back. `TooLarge` is never returned, because the bytes put lie within the capacity. Except after
    /// `NotBegun`, the bytes put are discarded, and `put_end` is 0.
    ///
    /// # What the caller must keep to
    ///
    /// - `len` is at most `put_end`.
    pub fn commit(&mut self, len: u32) -> Result<(), PutFault> {
        debug_assert!(len <= self.put_end());
        let done = steps::commit(&mut self.medium, &mut self.puts, self.places, len);
        self.places = look(&self.medium);
        done
    }
}
