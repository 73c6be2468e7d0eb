//! Devices over a simulated medium, and what the tests of devices share.

use arrayvec::ArrayVec;
use fustrelan::device::{Answer, Config, ConfigFault, Device};
use fustrelan::memory::Global;
use fustrelan::slots::{SimMedium, Slots};
use fustrelan::wire::{Functional, State};
use unit::requests::IDS;
use unit::{Outcome, are_displayed};

mod all_setups;
mod blocks;
mod cells;
mod filled;
mod lies;
mod many_pieces;
mod named;
mod restart;
mod rows;
mod sizes;
mod stations;
mod uploads;

const FIRST: [u8; 8] = [0x21, 1, 0, 0, 0, 0, 4, 0];
const SECOND: [u8; 8] = [0x21, 1, 1, 0, 0, 0, 4, 0];
const CLOSE: [u8; 8] = [0x21, 1, 1, 0, 0, 0, 0, 0];
const BLOCK: [u8; 4] = [0xff; 4];

/// The descriptor with these bits of bmAttributes, wDetachTimeOut 255 and wTransferSize 8.
fn functional(attributes: u8) -> Functional {
    Functional {
        can_download: attributes & 1 != 0,
        can_upload: attributes & 2 != 0,
        tolerant: attributes & 4 != 0,
        will_detach: attributes & 8 != 0,
        detach_ms: 255,
        transfer: 8,
        version: 0x0100,
    }
}

/// A device with room for 64 bytes and the image `00`.
fn device(
    functional: Functional,
    least: u32,
    busy_ms: u32,
    manifest_ms: u32,
) -> Outcome<Device<SimMedium>> {
    let config = Config::new(IDS, functional, least, busy_ms, manifest_ms)?;
    device_on(SimMedium::new(Global, 192)?, config, &[0])
}

/// A device whose medium is formatted with an image.
fn device_on(medium: SimMedium, config: Config, image: &[u8]) -> Outcome<Device<SimMedium>> {
    let slots = Slots::format(medium, image).map_err(|(fault, _)| fault)?;
    Ok(Device::start(config, slots))
}

/// What happens to a device in a row of a table.
#[derive(Clone, Copy)]
enum Cause {
    Ask([u8; 8], &'static [u8]),
    Wait(u32),
    Reset,
}

/// A cause, its answer (Ack if it has none) with its bytes, and the state after it.
type Row = (Cause, Answer, &'static [u8], State);

/// Carries out a cause. Returns its answer, or Ack if it has none.
fn carry_out(device: &mut Device<SimMedium>, cause: Cause, out: &mut ArrayVec<u8, 4096>) -> Answer {
    match cause {
        Cause::Ask(setup, body) => device.handle(&setup, body, out),
        Cause::Wait(ms) => {
            device.elapse(ms);
            Answer::Ack
        }
        Cause::Reset => {
            device.usb_reset();
            Answer::Ack
        }
    }
}

/// Carries out the rows one after the other.
fn play(device: &mut Device<SimMedium>, rows: &[Row]) {
    let mut out = ArrayVec::new();
    for (number, row) in rows.iter().enumerate() {
        let (cause, wanted, bytes, after) = *row;
        out.clear();
        let answer = carry_out(device, cause, &mut out);
        assert_eq!(
            (answer, out.as_slice(), device.state()),
            (wanted, bytes, after),
            "row {number}"
        );
    }
}

/// A device with room for 64 bytes and the image `00` has played these rows. It is set up with bmAttributes, the fewest bytes of
/// an image, the busy time and the manifestation time.
fn played(set_up: (u8, u32, u32, u32), rows: &[Row]) -> Outcome<Device<SimMedium>> {
    let (attributes, least, busy_ms, manifest_ms) = set_up;
    let mut device = device(functional(attributes), least, busy_ms, manifest_ms)?;
    play(&mut device, rows);
    Ok(device)
}

#[test]
fn faults_say_what_is_wrong() {
    are_displayed(&[
        (
            ConfigFault::BadTransfer,
            "the transfer size is not 1 to 4096 bytes",
        ),
        (
            ConfigFault::BadPoll,
            "a poll time does not fit in 24 bits, or the manifestation time is 0 without tolerance",
        ),
        (
            ConfigFault::BadLeast,
            "the fewest bytes of an image are not 1 to 16777216",
        ),
    ]);
}
