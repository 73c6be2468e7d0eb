//! An install in one piece, power that goes and comes back, and the events of a clean run.

use super::config;
use dfu::callers::{install, installs, restarted};
use dfu::link::{Event, Fate, World};
use fustrelan::device::Device;
use fustrelan::host::Limits;
use fustrelan::memory::Global;
use fustrelan::slots::{SimMedium, Slots};
use fustrelan::wire::State;
use unit_program::Outcome;

/// Payload ffffffff, for every device, written down by dfu-suffix.
static FILE: [u8; 20] = [
    0xff, 0xff, 0xff, 0xff, 0xff, 0xff, 0xff, 0xff, 0xff, 0xff, 0x00, 0x01, 0x55, 0x46, 0x44, 0x10,
    0x71, 0xc8, 0x51, 0x0c,
];

/// A medium of two slots of 64 bytes, whose active image is the one byte 00h.
fn shipped() -> Outcome<Slots<SimMedium>> {
    match Slots::format(SimMedium::new(Global, 192)?, &[0]) {
        Ok(slots) => Ok(slots),
        Err((fault, _medium)) => Err(fault)?,
    }
}

#[test]
fn an_image_is_installed_in_one_piece() -> Outcome {
    let mut slots = shipped()?;
    install(&mut slots, &[5, 6, 7])?;
    assert_eq!(slots.active_len(), 3);
    Ok(())
}

#[test]
fn a_device_gets_power_anew() -> Outcome {
    let device = restarted(Device::start(config()?, shipped()?));
    assert_eq!(device.state(), State::AppIdle);
    assert_eq!(device.slots().active_len(), 1);
    Ok(())
}

#[test]
fn an_offer_and_thirteen_passes_install() -> Outcome {
    let mut world = World::new(Global, Device::start(config()?, shipped()?));
    let mut events = [Event::Go(Fate::Pass); 14];
    events[0] = Event::Offer {
        file: &FILE,
        limits: Limits {
            actions: 1_000_000,
            restarts: 0,
        },
    };
    assert!(installs(&mut world, Global, &events));
    assert_eq!(world.device().slots().active_len(), 4);
    Ok(())
}
