//! A download of more blocks, and an upload of more pieces, than there are numbers.

use super::Cause::Ask;
use super::named::DONE;
use super::uploads::TO_DFU_IDLE;
use super::{Row, device_on, functional, play};
use arrayvec::ArrayVec;
use fustrelan::device::{Answer, Config, Device};
use fustrelan::memory::Global;
use fustrelan::slots::SimMedium;
use fustrelan::wire::{Functional, State};
use unit::Outcome;
use unit::requests::{GET_STATUS, IDS};

/// A byte for each place, so that two places that are 65,536 apart differ.
fn byte_at(place: u32) -> u8 {
    (place % 251) as u8
}

/// A block of one byte is taken and written with the number that is due there.
fn takes(device: &mut Device<SimMedium>, out: &mut ArrayVec<u8, 4096>, place: u32) {
    let [low, high, _, _] = place.to_le_bytes();
    let answer = device.handle(&[0x21, 1, low, high, 0, 0, 1, 0], &[byte_at(place)], out);
    assert_eq!(answer, Answer::Ack);
    let _ = device.handle(&GET_STATUS, &[], out);
}

/// The piece of one byte that is due there is sent, or at the end one of no bytes.
fn sends(device: &mut Device<SimMedium>, out: &mut ArrayVec<u8, 4096>, place: u32, piece: &[u8]) {
    let [low, high, _, _] = place.to_le_bytes();
    let answer = device.handle(&[0xa1, 2, low, high, 0, 0, 1, 0], &[], out);
    assert_eq!((answer, out.as_slice()), (Answer::Bytes, piece));
}

/// The download is closed, and its image put in place.
#[rustfmt::skip]
static CLOSED: [Row; 2] = [
    (Ask([0x21, 1, 2, 0, 0, 0, 0, 0], &[]), Answer::Ack, &[], State::ManifestSync),
    DONE,
];

#[test]
fn number_0_comes_after_65535() -> Outcome {
    let functional = Functional {
        transfer: 1,
        ..functional(0x07)
    };
    let config = Config::new(IDS, functional, 1, 0, 0)?;
    let medium = SimMedium::new(Global, 2 * (32 + 65_538))?;
    let mut device = device_on(medium, config, &[0])?;
    play(&mut device, &TO_DFU_IDLE);
    let mut out = ArrayVec::new();
    for place in 0..65_538 {
        takes(&mut device, &mut out, place);
    }
    play(&mut device, &CLOSED);
    for place in 0..65_538 {
        sends(&mut device, &mut out, place, &[byte_at(place)]);
    }
    assert_eq!(device.state(), State::UploadIdle);
    sends(&mut device, &mut out, 65_538, &[]);
    assert_eq!(device.state(), State::DfuIdle);
    Ok(())
}
