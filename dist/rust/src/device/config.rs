// Of crates/dfu_device/src/config.rt, whose contracts are taken away.

//! Settings of a device, and the pace of its flash.

use crate::slots::Unit;
use crate::wire::{Functional, Ids};
use core::fmt;
use thiserror::Error;

/// Pace of a device's flash: the times of an erase and of a program, and the sizes in which the flash is written and erased. The poll
/// timeout is `busy_ms` in dfuDNBUSY and `manifest_ms` in dfuMANIFEST, each plus the time of the erases and programs that are pending.
#[derive(Clone, Copy, Debug, PartialEq, Eq)]
pub struct Pace {
    /// Time to erase a sector, in milliseconds.
    pub erase_ms: u16,
    /// Time to program 256 bytes, in milliseconds.
    pub program_ms: u16,
    /// Unit in which the flash is written.
    pub unit: Unit,
    /// Size of a sector in bytes; 0 if the flash is overwritten in place.
    pub sector: u32,
}

impl Pace {
    /// Returns a pace at which erases and programs take no time.
    pub fn none() -> Pace {
        Pace {
            erase_ms: 0,
            program_ms: 0,
            unit: Unit::Byte,
            sector: 0,
        }
    }
}

/// Settings of a device: its identifiers, its functional descriptor, the smallest length of an image (1 to 16,777,216 bytes), the times to
/// write a block and to make an image active (0 to 16,777,215 ms; at least 1 ms for an image if the device is not tolerant of
/// manifestation), and the pace of its flash.
///
/// Without a pace, both times must include the erases of a medium with sectors. A block takes at most one erase, and one more for each
/// sector that begins in a range of the transfer size plus a unit; an image takes two or three erases.
#[derive(Clone, Copy, Debug, PartialEq, Eq)]
pub struct Config {
    ids: Ids,
    functional: Functional,
    least: u32,
    busy_ms: u32,
    manifest_ms: u32,
    pace: Pace,
}

/// Reason for which a device can't be configured. The faults are checked in this order.
#[derive(Clone, Copy, Debug, PartialEq, Eq, Error)]
pub enum ConfigFault {
    /// The transfer size of the functional descriptor is 0 or over 4,096 bytes.
    BadTransfer,
    /// A time is over 16,777,215 ms, or the manifestation time is 0 although the device is not tolerant of manifestation.
    BadPoll,
    /// The smallest length of an image is 0 or over 16,777,216 bytes.
    BadLeast,
}

impl fmt::Display for ConfigFault {
    fn fmt(&self, f: &mut fmt::Formatter<'_>) -> fmt::Result {
        f.write_str(match self {
            ConfigFault::BadTransfer => "the transfer size is not 1 to 4096 bytes",
            ConfigFault::BadPoll =>
                "a poll time does not fit in 24 bits, or the manifestation time is 0 without tolerance",
            ConfigFault::BadLeast => "the fewest bytes of an image are not 1 to 16777216",
        })
    }
}

/// Fixed settings of a device, on which the decisions of the device table depend besides the mode and the request.
#[derive(Clone, Copy, Debug, PartialEq, Eq)]
pub struct Profile {
    pub functional: Functional,
    /// Smallest length of an image, in bytes.
    pub least: u32,
    /// Time to write a block, without the erases and programs of the flash, in milliseconds.
    pub busy_ms: u32,
    /// Time to make an image active, without the erases and programs of the flash, in milliseconds.
    pub manifest_ms: u32,
    /// Times of an erase and of a program of the flash.
    pub pace: Pace,
    /// Largest length of an image, in bytes.
    pub capacity: u64,
}

impl Config {
    /// Creates a configuration. The version of its functional descriptor is 0110h.
    ///
    /// # Errors
    ///
    /// The faults are checked in this order:
    ///
    /// 1. `BadTransfer`: the transfer size is 0 or over 4,096.
    /// 2. `BadPoll`: a time is over 16,777,215, or `manifest_ms` is 0 and the device is not tolerant of manifestation.
    /// 3. `BadLeast`: `least` is 0 or over 16,777,216.
    pub fn new(
        ids: Ids,
        functional: Functional,
        least: u32,
        busy_ms: u32,
        manifest_ms: u32,
    ) -> Result<Config, ConfigFault> {
        if functional.transfer == 0 || functional.transfer > 4096 {
            return Err(ConfigFault::BadTransfer);
        }
        if busy_ms > 0xff_ffff
            || manifest_ms > 0xff_ffff
            || !functional.tolerant && manifest_ms == 0
        {
            return Err(ConfigFault::BadPoll);
        }
        if least == 0 || least > 0x100_0000 {
            return Err(ConfigFault::BadLeast);
        }
        Ok(Config {
            ids,
            functional: Functional {
                version: 0x0110,
                ..functional
            },
            least,
            busy_ms,
            manifest_ms,
            pace: Pace::none(),
        })
    }

    /// Returns these settings with `pace` as the pace of the flash.
    pub fn with_pace(self, pace: Pace) -> Config {
        Config { pace, ..self }
    }

    pub(crate) fn ids(&self) -> Ids {
        self.ids
    }

    /// Returns the functional descriptor, with version 0110h.
    pub fn functional(&self) -> Functional {
        self.functional
    }

    /// Returns the largest length of a block, in bytes.
    pub(crate) fn transfer(&self) -> u16 {
        self.functional.transfer
    }

    /// Returns the smallest length of an image, in bytes.
    pub fn least(&self) -> u32 {
        self.least
    }

    /// Returns the time to write a block, in milliseconds, without the erases and programs of the pace.
    pub fn busy_ms(&self) -> u32 {
        self.busy_ms
    }

    /// Returns the time to make an image active, in milliseconds, without the erases and programs of the pace.
    pub fn manifest_ms(&self) -> u32 {
        self.manifest_ms
    }

    pub(crate) fn pace(&self) -> Pace {
        self.pace
    }

    /// Returns the profile of a device with these settings whose slots hold images of up to `capacity` bytes.
    pub fn profile(&self, capacity: u64) -> Profile {
        Profile {
            functional: self.functional(),
            least: self.least(),
            busy_ms: self.busy_ms(),
            manifest_ms: self.manifest_ms(),
            pace: self.pace,
            capacity,
        }
    }
}
