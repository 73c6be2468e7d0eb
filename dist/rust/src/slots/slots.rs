// Of crates/dfu_slots/src/slots.rt, whose contracts are taken away.

//! The slot store: two image slots on a medium, of which one holds the active image.

use crate::slots::layout::{capacity_of, is_sized};
use crate::slots::places::{Places, check, look};
use crate::slots::puts::Puts;
use crate::slots::read::{data_at, header_len, is_open, read_data};
use crate::slots::{Faulty, FormatFault, Medium, OpenFault, format};

/// Two image slots on a medium. The active slot holds the current image; the other one is the spare, which receives the next image piece by
/// piece. The store finds the active slot when it formats, opens or reopens the medium, and again after each `commit`.
///
/// The medium is written in whole units; bytes put that don't fill a unit yet are held back.
#[derive(Debug, PartialEq, Eq)]
pub struct Slots<M: Medium> {
    pub(crate) medium: M,
    pub(crate) puts: Puts,
    // Cached until the next `commit`, because a search computes a CRC register over each open slot.
    pub(crate) places: Places,
}

impl<M: Medium> Slots<M> {
    /// Writes an image into the first slot and makes it the active one, regardless of what the medium held before.
    ///
    /// # Errors
    ///
    /// `WrongSize` if the medium's length is not 2 * (2 * G + C), with C from 1 to 16,777,216 and a multiple of the unit and of the sector,
    /// and G the largest of 16, the unit's size and the sector's, or if the sector is neither 0 nor a multiple of 256 up to 262,144;
    /// `TooLarge` if the image has more than C bytes; `Failed` if a write failed, or other bytes were read back. The errors are checked in
    /// this order. The first two return the medium unchanged.
    pub fn format(medium: M, image: &[u8]) -> Result<Slots<M>, (FormatFault, M)>

         {
        if !is_sized(&medium) {
            return Err((FormatFault::WrongSize, medium));
        }
        if image.len() as u64 > u64::from(capacity_of(&medium)) {
            return Err((FormatFault::TooLarge, medium));
        }
        let mut medium = medium;
        match format::write_image(&mut medium, image) {
            Ok(()) => {
                let places = look(&medium);
                Ok(Slots {
                    medium,
                    puts: Puts::nothing(),
                    places,
                })
            }
            Err(_) => Err((FormatFault::Failed, medium)),
        }
    }

    /// Opens a medium that has an active image. Writes nothing.
    ///
    /// # Errors
    ///
    /// The first fault of the medium, in the order of `OpenFault`, with the unchanged medium.
    pub fn open(medium: M) -> Result<Slots<M>, (OpenFault, M)>

         {
        match check(&medium) {
            Ok(places) => Ok(Slots {
                medium,
                puts: Puts::nothing(),
                places,
            }),
            Err(fault) => Err((fault, medium)),
        }
    }

    /// Returns the largest length of an image in bytes: C, from 1 to 16,777,216.
    pub fn capacity(&self) -> u32 {
        capacity_of(&self.medium)
    }

    /// Returns the number of bytes that were put and not discarded since, from 0 to the capacity. If it is 0, no bytes are held back.
    pub fn put_end(&self) -> u32 {
        self.puts.end
    }

    /// Returns the bytes held back: the last bytes put, which don't fill a unit of the medium yet.
    pub fn held(&self) -> &[u8] {
        self.puts.held.as_slice()
    }

    /// Returns true if the gate of the spare slot is closed, so that `put` and `commit` don't return `NotBegun`.
    pub fn is_begun(&self) -> bool {
        !is_open(&self.medium, self.places.spare)
    }

    /// Returns the length of the active image in bytes, from 0 to the capacity.
    pub fn active_len(&self) -> u32 {
        match header_len(&self.medium, self.places.active) {
            Some(len) => len,
            None => unreachable!(),
        }
    }

    /// Returns the offset on the medium of the active image's first byte, from which a program may run the image. The offset is valid until
    /// the next `commit`.
    pub fn image_at(&self) -> u32 {
        data_at(&self.medium, self.places.active)
    }

    /// Reads `out.len()` bytes of the active image, the first one at offset `at`. The range must lie within the image.
    ///
    /// # What the caller must keep to
    ///
    /// - The range lies within the image.
    pub fn read_active(&self, at: u32, out: &mut [u8]) {
        debug_assert!(u64::from(at) + out.len() as u64 <= u64::from(self.active_len()));
        read_data(&self.medium, self.places.active, at, out);
    }

    /// Opens the store's own medium again, as after a power loss: the bytes put are discarded. The call never fails, because the medium has
    /// an active image. Writes nothing.
    pub fn reopen(&mut self) {
        self.puts.clear();
        match check(&self.medium) {
            Ok(places) => self.places = places,
            Err(_) => unreachable!(),
        }
    }

    /// Returns the medium for reading. Bytes that are held back are not on it.
    pub fn medium(&self) -> &M {
        &self.medium
    }

    /// Returns the medium. Bytes that are held back are not written to it.
    pub fn into_medium(self) -> M {
        let Slots {
            medium,
            puts: _,
            places: _,
        } = self;
        medium
    }
}

impl<M: Faulty> Slots<M> {
    /// Arms the medium, as `Faulty::arm` does. Changes no byte.
    pub fn arm(&mut self, writes: u32, tear: &[u8], stop: bool) {
        self.medium.arm(writes, tear, stop);
    }

    /// Arms the medium to lie, as `Faulty::arm_lie` does. Changes no byte.
    pub fn arm_lie(&mut self, writes: u32, tear: &[u8]) {
        self.medium.arm_lie(writes, tear);
    }

    /// Clears the fuse of the medium, as `Faulty::disarm` does. Changes no byte.
    pub fn disarm(&mut self) {
        self.medium.disarm();
    }
}
