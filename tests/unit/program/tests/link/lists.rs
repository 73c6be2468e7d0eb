//! Random lists of events, and what can be seen of the device after each event.

use super::bench::{Setup, world_on};
use super::events::{event, payload};
use super::plain::plain_image;
use dfu::link::{Event, World};
use fustrelan::device::Device;
use fustrelan::host::Report;
use fustrelan::memory::Global;
use fustrelan::slots::{Medium, SimMedium, Unit};
use fustrelan::wire::{Code, State};
use unit_program::Outcome;
use unit_program::dice::Dice;

/// The seed of the dice, how many lists are played, and how many events each has.
const SEED: u64 = 1;

const LISTS: u32 = 1_000;

const EVENTS: u32 = 100;

/// The room of a slot, a multiple of every unit, and the size of the largest medium with such slots.
const ROOM: u32 = 256;

const LONGEST: usize = 1_536;

/// An unwritten medium that is written in the unit with this number.
fn blank(unit: u32) -> Outcome<SimMedium> {
    let made = match unit {
        0 => SimMedium::with_unit(Global, 576, Unit::Byte)?,
        1 => SimMedium::with_unit(Global, 576, Unit::U16)?,
        2 => SimMedium::with_unit(Global, 768, Unit::U64)?,
        _ => SimMedium::with_unit(Global, 1_536, Unit::U256)?,
    };
    Ok(made)
}

/// How long the gate unit of such a medium is.
fn gate_size(unit: u32) -> usize {
    match unit {
        0 | 1 => 16,
        2 => 64,
        _ => 256,
    }
}

/// Another medium of this unit with these bytes, of the same length.
fn copy(unit: u32, bytes: &[u8]) -> Outcome<SimMedium> {
    let mut medium = blank(unit)?;
    let size = medium.unit().size() as usize;
    if bytes.len() != medium.len() as usize || bytes.len() % size != 0 || medium.sector() != 0 {
        panic!("the medium has another length");
    }
    medium.write(0, bytes)?;
    Ok(medium)
}

/// A device of any attributes, with a transfer size of 1 to 9 or of 4,096.
fn setup(dice: &mut Dice) -> Setup {
    let transfer = match dice.roll(10) {
        0 => 4_096,
        size => size as u16,
    };
    Setup {
        attributes: dice.roll(16) as u8,
        transfer,
        least: 1,
        busy_ms: dice.roll(3),
        manifest_ms: 1 + dice.roll(3),
        capacity: ROOM,
    }
}

/// The image is the first one or that of an offered file.
fn is_known(image: &[u8], offered: u32) -> bool {
    if image == [0].as_slice() {
        return true;
    }
    for number in 0..4 {
        if offered >> number & 1 == 1 && image == payload(number) {
            return true;
        }
    }
    false
}

/// The image that the device shows.
fn shown<'b>(device: &Device<SimMedium>, buffer: &'b mut [u8; 256]) -> &'b [u8] {
    let len = device.slots().active_len() as usize;
    let found = &mut buffer[..len.min(256)];
    device.slots().read_active(0, found);
    found
}

/// The medium's bytes have the image that the device shows, and so has a device that starts on a copy
/// of them.
fn looked_at(device: &Device<SimMedium>, unit: u32) -> Outcome {
    let mut before = [0; 256];
    let image = shown(device, &mut before);
    let medium = device.slots().medium();
    let mut bytes = [0; LONGEST];
    let len = (medium.len() as usize).min(LONGEST);
    medium.read(0, &mut bytes[..len]);
    assert!(plain_image(&bytes[..len], gate_size(unit)) == Some(image));
    match Device::power_on(device.config(), copy(unit, &bytes[..len])?) {
        Ok(started) => {
            let mut after = [0; 256];
            assert!(shown(&started, &mut after) == image);
            Ok(())
        }
        Err(_) => panic!("power doesn't come back"),
    }
}

/// If no session is live, the device is taken from the link and starts again on its own medium.
fn taken_apart(world: World<'static, SimMedium>) -> World<'static, SimMedium> {
    let device = match world.into_device() {
        Ok(device) => device,
        Err(live) => return live,
    };
    let config = device.config();
    match Device::power_on(config, device.into_medium()) {
        Ok(device) => World::new(Global, device),
        Err(_) => panic!("power doesn't come back"),
    }
}

/// If the host reports Installed or Verified, the device is in appIDLE with the image that was offered
/// last. If it reports Different, the device has another image.
fn is_as_reported(device: &Device<SimMedium>, image: &[u8], report: Report, last: u32) {
    match report {
        Report::Installed | Report::Verified => {
            assert!(image == payload(last));
            assert_eq!(device.state(), State::AppIdle);
            assert_eq!(device.code(), Code::Ok);
        }
        Report::Different => assert!(image != payload(last)),
        _ => {}
    }
}

/// After an event the image is the first one or an offered one, agrees with the report, and is in the medium's bytes.
fn is_kept(
    device: &Device<SimMedium>,
    unit: u32,
    reported: Option<Report>,
    (offered, last): (u32, u32),
) -> Outcome {
    let mut buffer = [0; 256];
    let image = shown(device, &mut buffer);
    assert!(is_known(image, offered));
    if let Some(report) = reported {
        is_as_reported(device, image, report, last);
    }
    looked_at(device, unit)
}

/// The offered files, a bit for each, and the number of the last one, after an event that was not refused.
fn offered_by(event: Event<'static, 'static>, number: u32, before: (u32, u32)) -> (u32, u32) {
    match event {
        Event::Offer { .. } | Event::OfferVerified { .. } => (before.0 | 1 << number, number),
        _ => before,
    }
}

/// Plays an event, and then checks the device.
fn play_event(
    dice: &mut Dice,
    world: &mut World<'static, SimMedium>,
    unit: u32,
    before: (u32, u32),
) -> Outcome<(u32, u32)> {
    let number = dice.roll(5);
    let event = event(dice, number);
    let (reported, after) = match world.step(event) {
        Ok(reported) => (reported, offered_by(event, number, before)),
        Err(_) => (None, before),
    };
    is_kept(world.device(), unit, reported, after)?;
    Ok(after)
}

/// Plays a list of events.
fn play_list(dice: &mut Dice) -> Outcome {
    let setup = setup(dice);
    let unit = dice.roll(4);
    let mut world = world_on(blank(unit)?, setup, &[0])?;
    let mut offered = (0, 0);
    for _ in 0..EVENTS {
        offered = play_event(dice, &mut world, unit, offered)?;
        if dice.roll(4) == 0 {
            world = taken_apart(world);
        }
    }
    Ok(())
}

#[test]
fn lists_of_events_keep_an_image() -> Outcome {
    let mut dice = Dice { state: SEED };
    for _ in 0..LISTS {
        play_list(&mut dice)?;
    }
    Ok(())
}
