//! Devices on media in memory, each with a board that begins with the same bytes.

use super::chip::Chip;
use fustrelan::asks::Sector;
use fustrelan::device::{Config, Device};
use fustrelan::memory::Global;
use fustrelan::slots::{Medium, SimMedium, Slots, Unit};
use fustrelan::wire::{Functional, Ids};
use unit_program::Outcome;
use unit_program::dice::Dice;

pub const IDS: Ids = Ids {
    device: 0x0100,
    product: 0x0001,
    vendor: 0x1209,
};

/// A medium with room for two images: of 64 to 1,024 bytes, in some unit and sector.
pub fn medium(kind: u32) -> Outcome<SimMedium> {
    Ok(match kind {
        0 => SimMedium::with_sectors(Global, 192, Unit::Byte, 0)?,
        1 => SimMedium::with_sectors(Global, 192, Unit::U16, 0)?,
        2 => SimMedium::with_sectors(Global, 2304, Unit::U64, 0)?,
        3 => SimMedium::with_sectors(Global, 3072, Unit::U256, 0)?,
        4 => SimMedium::with_sectors(Global, 2048, Unit::Byte, 256)?,
        5 => SimMedium::with_sectors(Global, 3072, Unit::U16, 256)?,
        6 => SimMedium::with_sectors(Global, 3072, Unit::U256, 256)?,
        _ => SimMedium::with_sectors(Global, 4096, Unit::U64, 512)?,
    })
}

/// A medium for images of up to 2,048 bytes, in some unit and sector.
pub fn larger_medium(dice: &mut Dice) -> Outcome<SimMedium> {
    let unit = dice.one_of(&[Unit::Byte, Unit::U16, Unit::U64, Unit::U256, Unit::U256]);
    let sector = dice.one_of(&[0, 0, 0, 256, 512]);
    let step = unit.size().max(sector);
    let room = step * (1 + dice.roll(2048 / step));
    let len = 2 * (2 * step.max(16) + room);
    Ok(SimMedium::with_sectors(Global, len, unit, sector)?)
}

/// A device's descriptor, with blocks of so many bytes.
pub fn functional(dice: &mut Dice, transfer: u16) -> Functional {
    Functional {
        can_download: true,
        can_upload: dice.roll(8) > 0,
        tolerant: dice.roll(4) > 0,
        will_detach: dice.roll(4) == 0,
        detach_ms: 255,
        transfer,
        version: 0x0110,
    }
}

/// A device with the image 00.
pub fn device_on(medium: SimMedium, config: Config) -> Outcome<Device<SimMedium>> {
    match Slots::format(medium, &[0]) {
        Ok(slots) => Ok(Device::start(config, slots)),
        Err((fault, _)) => Err(fault)?,
    }
}

/// A board with the configuration and the bytes of a device.
pub fn board_of(device: &Device<SimMedium>) -> Chip {
    let medium = device.slots().medium();
    let mut flash = vec![0; medium.len() as usize];
    medium.read(0, &mut flash);
    let sector = Sector::new(medium.sector()).expect("a size of sectors");
    Chip::power_on(device.config(), device.ids(), medium.unit(), sector, flash)
}
