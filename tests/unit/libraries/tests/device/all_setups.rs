//! Every pair of bmRequestType and bRequest at each station, a reset of the bus, and time, against the table of `stations.rt`.

use super::cells::{cell, seen};
use super::stations::{IMAGE, STATIONS, Station};
use super::{carry_out, device_on, play};
use arrayvec::ArrayVec;
use fustrelan::device::{Answer, Device};
use fustrelan::memory::Global;
use fustrelan::slots::SimMedium;
use fustrelan::wire::State;
use unit::Outcome;

/// The bytes of the bodies.
static BODY: [u8; 4097] = [0; 4097];

/// A setup for interface 0, and whether its body has as many bytes as go with it.
#[derive(Clone, Copy)]
struct Asked {
    kind: u8,
    request: u8,
    length: u16,
    fits: bool,
}

/// A device as it is set up for a station.
fn made(station: &Station) -> Outcome<Device<SimMedium>> {
    device_on(SimMedium::new(Global, 192)?, station.config()?, &IMAGE)
}

/// Brings the device to a station from any state.
fn go(device: &mut Device<SimMedium>, station: &Station, out: &mut ArrayVec<u8, 4096>) {
    device.usb_reset();
    if device.state() == State::DfuIdle {
        device.usb_reset();
    }
    for (cause, _, _, _) in &station.way.rows()[..station.steps] {
        let _ = carry_out(device, *cause, out);
    }
}

/// Whether a setup of this kind is a request of the class.
fn is_of_class(kind: u8) -> bool {
    kind == 0x21 || kind == 0xa1
}

/// The place of a request of the class in the table.
fn place(kind: u8, request: u8) -> usize {
    match (kind, request) {
        (0x21, 0) => 0,
        (0x21, 1) => 1,
        (0xa1, 2) => 2,
        (0xa1, 3) => 3,
        (0x21, 4) => 4,
        (0xa1, 5) => 5,
        (0x21, 6) => 6,
        _ => 7,
    }
}

/// The cell for a setup that goes by the table.
fn cell_for(station: &Station, asked: Asked) -> [u8; 3] {
    let size = usize::from(asked.length.min(2));
    cell(station, 1 + place(asked.kind, asked.request) * 3 + size)
}

/// How many bytes the body has.
fn body_len(asked: Asked) -> usize {
    let right = match asked.kind {
        0x21 => usize::from(asked.length),
        _ => 0,
    };
    match right {
        right if asked.fits => right,
        0 => 1,
        right => right - 1,
    }
}

/// Asks a device at a station.
fn ask(
    device: &mut Device<SimMedium>,
    station: &Station,
    asked: Asked,
    out: &mut ArrayVec<u8, 4096>,
) -> Answer {
    let [low, high] = asked.length.to_le_bytes();
    #[rustfmt::skip]
    let setup = [asked.kind, asked.request, station.number, 0, 0, 0, low, high];
    device.handle(&setup, &BODY[..body_len(asked)], out)
}

/// Whether these bytes are the front of others, cut to a length.
fn is_front(bytes: &[u8], told: &[u8], len: u16) -> bool {
    bytes == &told[..told.len().min(usize::from(len))]
}

/// Whether these are the bytes with which a request is answered.
fn is_told(station: &Station, asked: Asked, bytes: &[u8]) -> bool {
    match asked.request {
        3 => is_front(bytes, station.status, asked.length),
        5 => is_front(bytes, station.state, asked.length),
        _ => is_front(bytes, station.piece, asked.length),
    }
}

/// Asks what goes by the table of a device that was brought to the station for it.
fn check_served(
    device: &mut Device<SimMedium>,
    station: &Station,
    asked: Asked,
    out: &mut ArrayVec<u8, 4096>,
) {
    go(device, station, out);
    let answer = ask(device, station, asked, out);
    let told = match answer {
        Answer::Bytes => is_told(station, asked, out.as_slice()),
        _ => out.is_empty(),
    };
    assert!(
        told && seen(device, answer) == cell_for(station, asked),
        "request {} of length {} in {}",
        asked.request,
        asked.length,
        station.name
    );
}

/// Every setup that goes by the table.
fn check_all_served(station: &Station) -> Outcome {
    let mut out = ArrayVec::new();
    for kind in [0x21, 0xa1] {
        for request in 0..=255 {
            let mut device = made(station)?;
            for length in [0, 1, 4097] {
                let asked = Asked {
                    kind,
                    request,
                    length,
                    fits: true,
                };
                check_served(&mut device, station, asked, &mut out);
            }
        }
    }
    Ok(())
}

/// Every setup that does not go by the table, one after the other, is stalled, and nothing is seen to change.
/// In the end the device goes on as if nothing had come.
fn check_all_others(station: &Station) -> Outcome {
    let mut out = ArrayVec::new();
    let mut device = made(station)?;
    go(&mut device, station, &mut out);
    for pair in 0..=65_535_u16 {
        let [request, kind] = pair.to_le_bytes();
        for length in [0, 1, 4097] {
            let asked = Asked {
                kind,
                request,
                length,
                fits: !is_of_class(kind),
            };
            let before = (device.state(), device.code());
            let answer = ask(&mut device, station, asked, &mut out);
            let is_same = (device.state(), device.code()) == before;
            assert!(
                answer == Answer::Stall && out.is_empty() && is_same,
                "kind {kind} request {request} length {length} in {}",
                station.name
            );
        }
    }
    assert_eq!(
        seen(&device, Answer::Stall),
        cell(station, 0),
        "{}",
        station.name
    );
    let rows = station.way.rows();
    play(&mut device, &rows[station.steps..]);
    Ok(())
}

/// A reset of the bus.
fn check_reset(station: &Station) -> Outcome {
    let mut device = made(station)?;
    go(&mut device, station, &mut ArrayVec::new());
    device.usb_reset();
    assert_eq!(
        seen(&device, Answer::Ack),
        cell(station, 25),
        "{}",
        station.name
    );
    Ok(())
}

/// Milliseconds that pass.
fn check_time(station: &Station) -> Outcome {
    for (column, ms) in [(26, 0), (27, 1), (28, 10)] {
        let mut device = made(station)?;
        go(&mut device, station, &mut ArrayVec::new());
        device.elapse(ms);
        assert_eq!(
            seen(&device, Answer::Ack),
            cell(station, column),
            "{}",
            station.name
        );
    }
    Ok(())
}

/// All that can come to a device at a station.
fn check_station(station: &Station) -> Outcome {
    check_all_served(station)?;
    check_all_others(station)?;
    check_reset(station)?;
    check_time(station)
}

#[test]
fn every_setup_a_reset_and_time_go_by_the_table() -> Outcome {
    for station in &STATIONS {
        check_station(station)?;
    }
    Ok(())
}
