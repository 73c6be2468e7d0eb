//! Links to a device on a medium in memory, and the turns that are played on them.

use dfu::link::{Event, Fate, LinkFault, World};
use fustrelan::device::{Config, Device};
use fustrelan::host::{Limits, Report};
use fustrelan::memory::Global;
use fustrelan::slots::{SimMedium, Slots};
use fustrelan::wire::{Code, Functional, Ids, State};
use unit_program::Outcome;

/// Payload ffffffff, for every device.
pub const W: [u8; 20] = [
    0xff, 0xff, 0xff, 0xff, 0xff, 0xff, 0xff, 0xff, 0xff, 0xff, 0x00, 0x01, 0x55, 0x46, 0x44, 0x10,
    0x71, 0xc8, 0x51, 0x0c,
];

/// Payload ffffffff, for a device with the identifiers 0.
pub const FOR_ZERO: [u8; 20] = [
    0xff, 0xff, 0xff, 0xff, 0x00, 0x00, 0x00, 0x00, 0x00, 0x00, 0x00, 0x01, 0x55, 0x46, 0x44, 0x10,
    0x37, 0xbd, 0x06, 0x3c,
];

/// An image of eight bytes.
pub const EIGHT: [u8; 8] = [0, 1, 2, 3, 4, 5, 6, 7];

/// Enough actions, and no restart.
pub const AMPLE: Limits = Limits {
    actions: 1_000_000,
    restarts: 0,
};

/// The setup of a device: bmAttributes, wTransferSize, the fewest bytes of an image, its two times, and
/// the room for an image in bytes, at most 2^24.
#[derive(Clone, Copy)]
pub struct Setup {
    pub attributes: u8,
    pub transfer: u16,
    pub least: u32,
    pub busy_ms: u32,
    pub manifest_ms: u32,
    pub capacity: u32,
}

/// A tolerant device that takes 5 ms for a block and 10 ms for an image.
pub const USUAL: Setup = Setup {
    attributes: 0x07,
    transfer: 8,
    least: 1,
    busy_ms: 5,
    manifest_ms: 10,
    capacity: 64,
};

/// The same device, but not tolerant.
pub const SILENT: Setup = Setup {
    attributes: 0x03,
    ..USUAL
};

/// The length of a medium whose slots have room for so many bytes, up to 2^24; 0 if they are more.
pub fn medium_len(capacity: u32) -> u32 {
    if capacity > 0x100_0000 {
        return 0;
    }
    2 * (32 + capacity)
}

/// A link to a device with the image `00`.
pub fn world<'f>(setup: Setup) -> Outcome<World<'f, SimMedium>> {
    world_of(setup, &[0])
}

/// A link to a device with this image.
pub fn world_of<'f>(setup: Setup, image: &[u8]) -> Outcome<World<'f, SimMedium>> {
    let medium = SimMedium::new(Global, medium_len(setup.capacity))?;
    world_on(medium, setup, image)
}

/// A link to a device with this image on this medium, which has the right length.
pub fn world_on<'f>(
    medium: SimMedium,
    setup: Setup,
    image: &[u8],
) -> Outcome<World<'f, SimMedium>> {
    let ids = Ids {
        device: 0x0100,
        product: 0x0001,
        vendor: 0x1209,
    };
    let functional = Functional {
        can_download: setup.attributes & 1 != 0,
        can_upload: setup.attributes & 2 != 0,
        tolerant: setup.attributes & 4 != 0,
        will_detach: setup.attributes & 8 != 0,
        detach_ms: 255,
        transfer: setup.transfer,
        version: 0x0110,
    };
    let config = Config::new(
        ids,
        functional,
        setup.least,
        setup.busy_ms,
        setup.manifest_ms,
    )?;
    match Slots::format(medium, image) {
        Ok(slots) => Ok(World::new(Global, Device::start(config, slots))),
        Err((fault, _)) => Err(fault)?,
    }
}

/// An event that comes so many times.
#[derive(Clone, Copy)]
pub struct Turn<'f, 't> {
    pub event: Event<'f, 't>,
    pub times: usize,
}

/// An offer to a host that takes at most so many actions and restarts.
pub fn offer_within(file: &[u8], actions: u32, restarts: u16) -> Turn<'_, 'static> {
    let limits = Limits { actions, restarts };
    Turn {
        event: Event::Offer { file, limits },
        times: 1,
    }
}

pub fn offer(file: &[u8]) -> Turn<'_, 'static> {
    offer_within(file, AMPLE.actions, AMPLE.restarts)
}

pub const UPLOAD: Turn<'static, 'static> = Turn {
    event: Event::Upload { limits: AMPLE },
    times: 1,
};

pub fn go(fate: Fate<'_>) -> Turn<'static, '_> {
    Turn {
        event: Event::Go(fate),
        times: 1,
    }
}

pub fn pass(times: usize) -> Turn<'static, 'static> {
    Turn {
        event: Event::Go(Fate::Pass),
        times,
    }
}

/// Plays the turns. Nothing is refused, and nothing is reported before the last event, whose report
/// is `last`.
pub fn play<'f>(world: &mut World<'f, SimMedium>, turns: &[Turn<'f, '_>], last: Option<Report>) {
    for (number, turn) in turns.iter().enumerate() {
        for time in 0..turn.times {
            let ends = turns.len() - number == 1 && turn.times - time == 1;
            let due = if ends { last } else { None };
            match world.step(turn.event) {
                Ok(report) => assert_eq!(report, due, "the report at time {time} of turn {number}"),
                Err(fault) => panic!("turn {number} is refused: {fault}"),
            }
        }
    }
}

/// The event is refused with this fault.
pub fn refused(
    world: &mut World<'static, SimMedium>,
    event: Event<'static, 'static>,
    fault: LinkFault,
) {
    match world.step(event) {
        Ok(_) => panic!("it is not refused: {fault}"),
        Err(found) => assert_eq!(found, fault),
    }
}

/// The device is in this state, with this code and this image of at most 8 bytes.
pub fn stands(world: &World<'_, SimMedium>, state: State, code: Code, image: &[u8]) {
    let device = world.device();
    assert_eq!(device.state(), state);
    assert_eq!(device.code(), code);
    let slots = device.slots();
    assert_eq!(slots.active_len() as usize, image.len());
    let mut found = [0; 8];
    let found = &mut found[..image.len().min(8)];
    slots.read_active(0, found);
    assert_eq!(&*found, image);
}
