// Of crates/dfu_asks/src/noted.rt, whose contracts are taken away.

//! Flash that a device reads as memory, and the note of its active image.

use crate::asks::{Asking, Sector};
use crate::device::{PutSoFar, is_filled};
use crate::slots::{
    Failed, Medium, Unit, capacity_of, check, flash_byte_at, gate_of, header_of, is_open, is_sized,
    length_in, read_flash,
};

/// Flash that is mapped into memory, where it is read; every write or erase through this type fails. Its owner writes it in units, either
/// in place or after it has erased the sectors.
#[derive(Debug, PartialEq, Eq)]
pub struct Mapped<'m> {
    pub(crate) bytes: &'m [u8],
    pub(crate) unit: Unit,
    pub(crate) sector: Sector,
}

impl<'m> Mapped<'m> {
    /// Returns the medium of `bytes`, which is written in place, in units of `unit`; None if there are 2^32 bytes or more.
    pub fn new(bytes: &'m [u8], unit: Unit) -> Option<Mapped<'m>> {
        Mapped::with_sector(bytes, unit, Sector::none())
    }

    /// Returns the medium of `bytes`, which is written in units of `unit`: after an erase of its sectors of `sector` bytes, or in place if
    /// `sector` is 0.
    ///
    /// None if `sector` is neither 0 nor a multiple of 256 up to 262,144, or if there are 2^32 bytes or more.
    pub fn with_sectors(bytes: &'m [u8], unit: Unit, sector: u32) -> Option<Mapped<'m>> {
        Mapped::with_sector(bytes, unit, Sector::new(sector)?)
    }

    /// Returns the medium of `bytes`, as `with_sectors` does, for a `sector` that is known to be valid; None if there are 2^32 bytes or
    /// more.
    pub(crate) fn with_sector(bytes: &'m [u8], unit: Unit, sector: Sector) -> Option<Mapped<'m>> {
        if bytes.len() > 0xffff_ffff {
            return None;
        }
        Some(Mapped {
            bytes,
            unit,
            sector,
        })
    }
}

impl<'m> Medium for Mapped<'m> {
    fn len(&self) -> u32 {
        self.bytes.len() as u32
    }

    fn unit(&self) -> Unit {
        self.unit
    }

    fn sector(&self) -> u32 {
        self.sector.size()
    }

    // The CRC of a mapped flash uses small tables, because a library in a bootloader must be small.
    fn has_small_tables(&self) -> bool {
        true
    }

    fn read(&self, at: u32, out: &mut [u8]) {
        let from = at as usize;
        read_flash(&self.bytes[from..from + out.len()], out);
    }

    fn write(&mut self, _at: u32, _bytes: &[u8]) -> Result<(), Failed> {
        Err(Failed)
    }

    fn erase(&mut self, _at: u32) -> Result<(), Failed> {
        Err(Failed)
    }
}

/// Note of the active image: its slot, and that slot's header. A call that finds this header in that slot doesn't need to read the image.
#[derive(Clone, Copy, Debug, PartialEq, Eq)]
pub struct Noted {
    /// True if the active image is in the second slot, false if it is in the first.
    pub second: bool,
    /// Header of the active image's slot.
    pub header: [u8; 16],
}

impl Noted {
    /// Returns the note of the active image of `flash`. The call reads the image of each open slot.
    ///
    /// None exactly if the flash has no active image, or 2^32 bytes or more.
    pub fn find(flash: &[u8], unit: Unit, sector: Sector) -> Option<Noted> {
        let medium = Mapped::with_sector(flash, unit, sector)?;
        match check(&medium) {
            Ok(places) => Some(Noted {
                second: places.active != 0,
                header: header_of(&medium, places.active),
            }),
            Err(_) => {
                None
            }
        }
    }
}

/// View of a call's flash: offsets and lengths that follow from the note of the active image.
#[derive(Clone, Copy, Debug, PartialEq, Eq)]
pub(crate) struct View {
    /// Offset of the active slot.
    pub(crate) active: u32,
    /// Offset of the spare slot.
    pub(crate) spare: u32,
    /// Largest number of bytes of an image that a slot can hold.
    pub(crate) room: u32,
    /// Length of the active image.
    pub(crate) len: u32,
}

// Returns true if a header of flash equals `other`. A loop takes less code than `==`.
fn are_same(one: &[u8], other: &[u8; 16]) -> bool {
    for i in 0..16 {
        if flash_byte_at(one, i) != other[i] {
            return false;
        }
    }
    true
}

/// Returns the view of `medium` if it consists of two slots, and the noted slot is open, has the noted header, and is large enough for the
/// image length in that header; else None.
#[inline(never)]
pub(crate) fn look(medium: &Mapped<'_>, noted: &Noted) -> Option<View> {
    if !is_sized(medium) {
        return None;
    }
    let half = medium.len() / 2;
    let (active, spare) = if noted.second { (half, 0) } else { (0, half) };
    if !is_open(medium, active) {
        return None;
    }
    let from = (active + gate_of(medium)) as usize;
    if !are_same(&medium.bytes[from..from + 16], &noted.header) {
        return None;
    }
    let (room, len) = (capacity_of(medium), length_in(&noted.header));
    if len > room {
        return None;
    }
    Some(View {
        active,
        spare,
        room,
        len,
    })
}

// Returns true if `end` is at most `room`, and `held` is the number of bytes by which `end` exceeds a multiple of the unit.
fn puts_may_end_at(unit: Unit, held: usize, end: u32, room: u32) -> bool {
    end <= room && held == (end % unit.size()) as usize
}

impl Asking {
    /// Returns true if the kept fields agree with `medium` and `view`, and a block memory of `room` bytes is large enough.
    #[inline(never)]
    pub(crate) fn kept_fields_fit(&self, room: usize, medium: &Mapped<'_>, view: &View) -> bool {
        if self.block_len > room
            || usize::from(self.config.functional().transfer) > room.min(4096)
        {
            return false;
        }
        if !puts_may_end_at(self.unit, self.held_len, self.put_end, view.room) {
            return false;
        }
        let seen = PutSoFar {
            room: view.room,
            begun: !is_open(medium, view.spare),
            end: self.put_end,
        };
        is_filled(seen, self.mode, self.block_len)
    }
}
