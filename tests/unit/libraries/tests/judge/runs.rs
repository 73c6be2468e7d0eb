//! Random runs of this repository's device: the judge accepts all its answers.

use super::{POWER, RESET, bytes};
use arrayvec::ArrayVec;
use fustrelan::conformance::{Judge, LogEvent, Response, Verdict};
use fustrelan::device::{Answer as Said, Config, Device};
use fustrelan::memory::Global;
use fustrelan::slots::{SimMedium, Slots};
use fustrelan::wire::{Functional, Ids, Setup};
use unit::Outcome;

const IDS: Ids = Ids {
    device: 0x0100,
    product: 0x0001,
    vendor: 0x1209,
};

/// Requests to start from; some of them are changed before they are sent.
#[rustfmt::skip]
static ASKED: [[u8; 8]; 12] = [
    [0x21, 0, 20, 0, 0, 0, 0, 0], [0x21, 1, 0, 0, 0, 0, 4, 0], [0x21, 1, 1, 0, 0, 0, 4, 0], [0x21, 1, 1, 0, 0, 0, 0, 0],
    [0xa1, 2, 0, 0, 0, 0, 2, 0], [0xa1, 2, 1, 0, 0, 0, 8, 0], [0xa1, 3, 0, 0, 0, 0, 6, 0], [0xa1, 3, 0, 0, 0, 0, 6, 0],
    [0x21, 4, 0, 0, 0, 0, 0, 0], [0xa1, 5, 0, 0, 0, 0, 1, 0], [0x21, 6, 0, 0, 0, 0, 0, 0], [0x21, 7, 0, 0, 0, 0, 0, 0],
];

/// The bytes of the bodies.
static BODY: [u8; 16] = [0xa5; 16];

/// Numbers that look random.
struct Random {
    seed: u32,
}

impl Random {
    /// A byte.
    fn next(&mut self) -> u8 {
        self.seed = self
            .seed
            .wrapping_mul(1_664_525)
            .wrapping_add(1_013_904_223);
        self.seed.to_be_bytes()[0]
    }

    /// A byte below this one, or 0.
    fn below(&mut self, limit: u8) -> u8 {
        let byte = self.next();
        if limit == 0 { 0 } else { byte % limit }
    }
}

/// A device with room for 64 bytes: run n has bmAttributes n modulo 16.
fn device(run: u32, random: &mut Random) -> Outcome<Device<SimMedium>> {
    let attributes = (run % 16) as u8;
    let functional = Functional::of_attributes(attributes, 20, 8, 0x0110);
    let busy = u32::from(random.below(3)) * 5;
    let manifest = if functional.tolerant {
        u32::from(random.below(3)) * 5
    } else {
        5
    };
    let config = Config::new(IDS, functional, 1, busy, manifest)?;
    match Slots::format(SimMedium::new(Global, 192)?, &[9, 8, 7, 6, 5]) {
        Ok(slots) => Ok(Device::start(config, slots)),
        Err((fault, _)) => Err(fault)?,
    }
}

/// A request, mostly unchanged, and how many bytes its body has.
fn request(random: &mut Random) -> ([u8; 8], usize) {
    let number = random.below(12) as usize;
    let mut setup = match ASKED.get(number) {
        Some(setup) => *setup,
        None => [0; 8],
    };
    match random.next() {
        0..8 => setup[2] = random.next(),
        8..16 => setup[6] = random.below(10),
        16..20 => setup[1] = random.below(9),
        20..22 => setup[4] = 1,
        _ => {}
    }
    let mut body = if setup[0] == 0x21 {
        setup[6] as usize
    } else {
        0
    };
    if random.next() < 6 {
        body = random.below(10) as usize;
    }
    (setup, body)
}

/// The answer as a log has it.
fn seen(said: Said, out: &[u8]) -> Response {
    match said {
        Said::Ack => bytes(&[]),
        Said::Bytes => bytes(out),
        Said::Stall => Response::Stall,
    }
}

/// One event of a run, or nothing if time passes or a request is not for the interface.
fn event(device: &mut Device<SimMedium>, random: &mut Random) -> Option<LogEvent> {
    match random.next() {
        0..60 => {
            device.elapse(u32::from(random.below(12)));
            None
        }
        60..75 => {
            device.usb_reset();
            Some(RESET)
        }
        75..78 => {
            device.restart();
            Some(POWER)
        }
        78..84 => {
            device.arm(u32::from(random.below(4)), &[], false);
            None
        }
        84..92 => {
            device.disarm();
            None
        }
        _ => {
            let (setup, body) = request(random);
            let mut out = ArrayVec::new();
            let said = device.handle(&setup, &BODY[..if body < 16 { body } else { 16 }], &mut out);
            let lost = random.next() < 6;
            let answer = if lost {
                Response::Nothing
            } else {
                seen(said, out.as_slice())
            };
            LogEvent::exchange(&Setup::decode(&setup), body, answer)
        }
    }
}

#[test]
fn two_thousand_runs_are_kept() -> Outcome {
    let mut random = Random { seed: 20_261_126 };
    for run in 0u32..2_000 {
        let mut device = device(run, &mut random)?;
        let mut judge = Judge::new();
        for step in 0u32..20 {
            if let Some(event) = event(&mut device, &mut random) {
                let departure = judge.take(&event);
                assert!(departure.is_none(), "run {run}, step {step}: {event:?}");
            }
        }
        assert_eq!(judge.verdict(), Verdict::Kept, "run {run}");
    }
    Ok(())
}
