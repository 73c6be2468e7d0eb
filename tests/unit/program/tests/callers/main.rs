//! The three callers together: the flashing tool's session reaches the bootloader's device, on a chip in memory.

mod cable;
mod images;
mod part;
mod ram;
mod seat;

use cable::Cable;
use dfu::callers::{Fram, Nor, Start, boot, flash, load};
use fustrelan::device::{Config, Device};
use fustrelan::host::{Host, Limits, Report};
use fustrelan::slots::{OpenFault, Slots};
use fustrelan::suffix::read;
use fustrelan::wire::{Code, Functional, Ids};
use part::SimulatedNor;
use ram::Ram;
use seat::Seat;
use unit_program::Outcome;

const IDS: Ids = Ids {
    device: 0x0100,
    product: 0x0001,
    vendor: 0x1209,
};

static FUNCTIONAL: Functional = Functional {
    can_download: true,
    can_upload: true,
    tolerant: true,
    will_detach: false,
    detach_ms: 255,
    transfer: 8,
    version: 0x0110,
};

const LIMITS: Limits = Limits {
    actions: 100,
    restarts: 0,
};

/// Payload 123456789, for product 0001h of vendor 1209h, written down by dfu-suffix.
static FILE: [u8; 25] = [
    0x31, 0x32, 0x33, 0x34, 0x35, 0x36, 0x37, 0x38, 0x39, 0x00, 0x01, 0x01, 0x00, 0x09, 0x12, 0x00,
    0x01, 0x55, 0x46, 0x44, 0x10, 0x62, 0x1c, 0x70, 0xfe,
];

/// A chip whose active image is the one byte 00h.
fn shipped() -> Outcome<Fram<Ram>> {
    match Slots::format(Fram { chip: Ram::new() }, &[0]) {
        Ok(slots) => Ok(slots.into_medium()),
        Err((fault, _medium)) => Err(fault)?,
    }
}

/// How the device is set up.
fn config() -> Outcome<Config> {
    Ok(Config::new(IDS, FUNCTIONAL, 1, 5, 10)?)
}

/// A device that got power on a medium.
fn device_on(medium: Fram<Ram>) -> Outcome<Device<Fram<Ram>>> {
    match Device::power_on(config()?, medium) {
        Ok(device) => Ok(device),
        Err((fault, _medium)) => Err(fault)?,
    }
}

/// The device has this image to start.
fn starts(device: &Device<Fram<Ram>>, image: &[u8]) {
    let mut place = [0xee; 16];
    assert_eq!(load(device, &mut place), Some(image.len()));
    assert_eq!(place.get(..image.len()), Some(image));
    assert_eq!(place.get(image.len()), Some(&0xee));
}

/// A host that downloads the file.
fn host() -> Outcome<Host<'static>> {
    Ok(Host::download(&read(&FILE)?, &FUNCTIONAL, IDS, LIMITS)?)
}

/// The session of the tool with a device on this medium ends with this report, and this image is to start then.
fn tool_reports(
    mut host: Host<'static>,
    medium: Fram<Ram>,
    report: Report,
    image: &[u8],
) -> Outcome {
    let mut cable = Cable::to(device_on(medium)?);
    assert_eq!(flash(&mut host, &mut cable), report);
    starts(cable.device(), image);
    Ok(())
}

#[test]
fn tool_installs() -> Outcome {
    tool_reports(host()?, shipped()?, Report::Installed, b"123456789")
}

#[test]
fn tool_verifies() -> Outcome {
    let host = Host::download_verified(&read(&FILE)?, &FUNCTIONAL, IDS, LIMITS)?;
    tool_reports(host, shipped()?, Report::Verified, b"123456789")
}

#[test]
fn tool_tells_of_a_write_that_fails() -> Outcome {
    let mut medium = shipped()?;
    medium.chip.fail_after(1);
    tool_reports(host()?, medium, Report::Refused(Code::Write), &[0])
}

#[test]
fn tool_tells_of_a_write_that_is_not_there() -> Outcome {
    let mut medium = shipped()?;
    medium.chip.lie_after(1);
    tool_reports(host()?, medium, Report::Refused(Code::Verify), &[0])
}

/// The bootloader, which stays or not, returns a device with this image to start.
fn boots(seat: &mut Seat<'static>, stay: bool, image: &[u8]) -> Outcome<Device<Fram<Ram>>> {
    match boot(config()?, shipped()?, seat, stay) {
        Ok(Start { device, len }) => {
            assert_eq!(len as usize, image.len());
            starts(&device, image);
            Ok(device)
        }
        Err((fault, _medium)) => Err(fault)?,
    }
}

#[test]
fn bootloader_serves_until_the_image_is_in_place() -> Outcome {
    let mut seat = Seat::with(host()?);
    boots(&mut seat, true, b"123456789")?;
    assert_eq!(seat.report(), Some(Report::Installed));
    Ok(())
}

#[test]
fn bootloader_starts_at_once() -> Outcome {
    let mut seat = Seat::with(host()?);
    let device = boots(&mut seat, false, &[0])?;
    assert_eq!(load(&device, &mut []), None);
    assert_eq!(seat.report(), None);
    Ok(())
}

#[test]
fn bootloader_refuses_a_blank_chip() -> Outcome {
    let mut seat = Seat::with(host()?);
    let blank = Fram { chip: Ram::new() };
    match boot(config()?, blank, &mut seat, true) {
        Ok(_start) => assert!(false),
        Err((fault, _medium)) => assert_eq!(fault, OpenFault::NoImage),
    }
    Ok(())
}

// Format erases five sectors, the first install three, and the second four, since it finds the gate open. No sector is erased
// twice for one write, and no unit is programmed over.
#[test]
fn flash_is_erased_before_it_is_programmed() -> Outcome {
    let mut slots = match Slots::format(
        Nor {
            flash: SimulatedNor::new(),
        },
        &[0],
    ) {
        Ok(slots) => slots,
        Err((fault, _medium)) => Err(fault)?,
    };
    assert!(slots.medium().flash.erases == 5 && slots.capacity() == 256);
    slots.begin()?;
    slots.put(0, &[7; 20])?;
    slots.commit(20)?;
    assert!(slots.medium().flash.erases == 8 && slots.active_len() == 20);
    slots.begin()?;
    slots.put(0, &[9; 200])?;
    slots.put(200, &[8; 56])?;
    slots.commit(256)?;
    assert!(slots.medium().flash.erases == 12 && slots.active_len() == 256);
    assert!(slots.medium().flash.twice == 0);
    Ok(())
}
