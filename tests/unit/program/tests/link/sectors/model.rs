//! A plain model of the bytes of flash with sectors, and of two downloads to it.

use crate::bench::W;
use dfu::link::Fate;
use fustrelan::wire::Code;

/// Each slot has a sector for its gate, one for its header and one of data, written in units of 256 bytes. The first
/// slot begins at 0, the second at 12,288.
pub const SECTOR: usize = 4096;

pub const SIZE: usize = 6 * SECTOR;

/// Payload `123456789`, for the device of the bench.
const N: [u8; 25] = [
    0x31, 0x32, 0x33, 0x34, 0x35, 0x36, 0x37, 0x38, 0x39, 0x00, 0x01, 0x01, 0x00, 0x09, 0x12, 0x00,
    0x01, 0x55, 0x46, 0x44, 0x10, 0x62, 0x1c, 0x70, 0xfe,
];

/// What a write leaves if it works: an erased sector, or a unit with these bytes at its front and zeros after them.
#[derive(Clone, Copy)]
pub enum Step {
    Erase(usize),
    Write(usize, &'static [u8]),
}

/// A download: its file, the image before it and its own, the place of its gate, what its block writes, and the steps
/// of its commit.
#[derive(Clone, Copy)]
pub struct Download {
    pub file: &'static [u8],
    pub old: &'static [u8],
    pub new: &'static [u8],
    pub gate: usize,
    pub block: &'static [Step],
    pub commit: &'static [Step],
}

pub static FORMAT: [Step; 3] = [
    Step::Write(8192, &[0]),
    Step::Write(4096, &[0, 2, 0, 0, 1, 0, 0, 0, 0x72, 0x10, 0xfd, 0x2d]),
    Step::Write(0, &[0xa5]),
];

#[rustfmt::skip]
pub static FIRST: Download = Download {
    file: &W,
    old: &[0],
    new: &[0xff; 4],
    gate: 12_288,
    block: &[],
    commit: &[
        Step::Erase(20_480), Step::Write(20_480, &[0xff; 4]),
        Step::Erase(16_384), Step::Write(16_384, &[1, 2, 0, 0, 4]),
        Step::Erase(12_288), Step::Write(12_288, &[0xa5]),
    ],
};

/// The second download replaces the factory image, whose gate is open.
#[rustfmt::skip]
pub static SECOND: Download = Download {
    file: &N,
    old: &[0xff; 4],
    new: b"123456789",
    gate: 0,
    block: &[Step::Erase(0)],
    commit: &[
        Step::Erase(8192), Step::Write(8192, b"123456789"),
        Step::Erase(4096), Step::Write(4096, &[2, 2, 0, 0, 9, 0, 0, 0, 0xd9, 0xc6, 0x0b, 0x34]),
        Step::Erase(0), Step::Write(0, &[0xa5]),
    ],
};

/// Where a step writes, how many bytes, and what each is.
fn range_of(step: Step) -> (usize, usize) {
    match step {
        Step::Erase(at) => (at, SECTOR),
        Step::Write(at, _) => (at, 256),
    }
}

fn byte_of(step: Step, number: usize) -> u8 {
    match step {
        Step::Erase(_) => 0xff,
        Step::Write(_, front) => match front.get(number) {
            Some(byte) => *byte,
            None => 0,
        },
    }
}

/// A step that works.
fn do_step(model: &mut [u8], step: Step) {
    let (at, len) = range_of(step);
    for number in 0..len {
        if let Some(cell) = model.get_mut(at + number) {
            *cell = byte_of(step, number);
        }
    }
}

pub fn do_steps(model: &mut [u8], steps: &[Step]) {
    for step in steps {
        do_step(model, *step);
    }
}

/// A step that writes only the first bytes of this tear.
fn tear_step(model: &mut [u8], step: Step, tear: &[u8]) {
    let (at, len) = range_of(step);
    for number in 0..len {
        if let (Some(cell), Some(byte)) = (model.get_mut(at + number), tear.get(number)) {
            *cell = *byte;
        }
    }
}

/// Whether a step is found when it is read back.
fn is_done(model: &[u8], step: Step) -> bool {
    let (at, len) = range_of(step);
    for number in 0..len {
        if model.get(at + number) != Some(&byte_of(step, number)) {
            return false;
        }
    }
    true
}

/// How a step is harmed.
#[derive(Clone, Copy, PartialEq, Eq)]
pub enum Kind {
    Cut,
    Fails,
    Lies,
}

/// The fate that harms the step after so many.
pub fn fate_of(kind: Kind, writes: u32, tear: &[u8]) -> Fate<'_> {
    match kind {
        Kind::Cut => Fate::Cut { writes, tear },
        Kind::Fails => Fate::Fail { writes, tear },
        Kind::Lies => Fate::Lie { writes, tear },
    }
}

/// So many steps work, and the next one, if there is one, is harmed. Returns the code of the error, if one is found.
pub fn harm(
    model: &mut [u8],
    steps: &[Step],
    writes: usize,
    tear: &[u8],
    kind: Kind,
) -> Option<Code> {
    for (number, step) in steps.iter().enumerate() {
        if number != writes {
            do_step(model, *step);
            continue;
        }
        tear_step(model, *step, tear);
        if kind != Kind::Lies {
            return Some(Code::Prog);
        }
        if !is_done(model, *step) {
            return Some(Code::Verify);
        }
    }
    None
}

/// The tear with this number: none, an open gate, an erased byte, or the bytes that were there.
pub fn tear_of<'b>(number: u32, model: &'b [u8], steps: &[Step], writes: usize) -> &'b [u8] {
    match (number, steps.get(writes)) {
        (0, _) => &[],
        (1, _) => &[0xa5],
        (2, _) => &[0xff],
        (_, None) => &[],
        (_, Some(step)) => {
            let (at, _) = range_of(*step);
            match model.get(at..) {
                Some(bytes) => bytes,
                None => &[],
            }
        }
    }
}

/// The bytes once so many of these steps have worked.
pub fn after_steps(model: &Vec<u8>, steps: &[Step], writes: usize) -> Vec<u8> {
    let mut after = model.clone();
    do_steps(&mut after, steps.get(..writes).unwrap_or(&[]));
    after
}

/// The image of a device whose commit was harmed after so many steps: the new one if its gate is open and its header
/// and data were written before.
pub fn image_of(
    download: &Download,
    model: &[u8],
    writes: usize,
    found: Option<Code>,
) -> &'static [u8] {
    let is_ready = found.is_none() || writes >= 4;
    if is_ready && model.get(download.gate) == Some(&0xa5) {
        download.new
    } else {
        download.old
    }
}
