//! Lists of events for a device and a board beside it.

use super::events::{event, file_of, harmed, long_tear, plain, refusal, tear_of};
use super::pair::Pair;
use super::setup::{IDS, device_on, functional, larger_medium, medium};
use dfu::sim::{Event, Fate};
use fustrelan::device::Config;
use fustrelan::host::Limits;
use fustrelan::memory::Global;
use fustrelan::slots::{SimMedium, Unit};
use unit_program::Outcome;
use unit_program::dice::Dice;

const LIMITS: Limits = Limits {
    actions: 300,
    restarts: 3,
};

/// 120 random events on a device with blocks of 1 to 500 bytes, whose offers all have one file.
pub fn small_blocks(dice: &mut Dice) -> Outcome {
    // In one of three lists a block fills what is held back of the one before, and has another whole unit: two writes in a row.
    let is_large = dice.roll(3) == 0;
    let (len, kind, transfer) = if is_large {
        (700 + dice.roll(301), 3, 500)
    } else {
        (
            dice.roll(80),
            dice.roll(8),
            dice.one_of(&[1, 3, 8, 64, 256, 300, 500]),
        )
    };
    let file = file_of(dice, len)?;
    let busy_ms = if dice.roll(2) == 0 { 0 } else { 5 };
    let manifest_ms = if dice.roll(3) == 0 { 1 } else { 10 };
    let config = Config::new(IDS, functional(dice, transfer), 1, busy_ms, manifest_ms)?;
    let mut pair = Pair::new(device_on(medium(kind)?, config)?);
    for _ in 0..120 {
        let tear = tear_of(dice);
        pair.step(event(dice, &file, &tear));
    }
    Ok(())
}

/// A device with blocks of up to 1,024 bytes, in any unit and sectors, and 25 offers, losses, harmed writes and runs of actions that pass.
/// Where it `refuses`, its program takes only images that begin with some bytes, and refuses images between two actions too.
pub fn large_blocks(dice: &mut Dice, refuses: bool) -> Outcome {
    let transfer = dice.one_of(&[8, 64, 100, 700, 700, 1024]);
    let busy_ms = dice.one_of(&[0, 5]);
    let functional = functional(dice, transfer);
    let manifest_ms = if functional.tolerant {
        dice.one_of(&[0, 10])
    } else {
        10
    };
    let config = Config::new(IDS, functional, 1, busy_ms, manifest_ms)?;
    let mut files = Vec::new();
    for _ in 0..25 {
        let len = 1 + dice.roll(1900);
        files.push(file_of(dice, len)?);
    }
    let check = if refuses {
        check_of(dice, &files)
    } else {
        Vec::new()
    };
    let mut pair = Pair::new(device_on(larger_medium(dice)?, config)?);
    for file in &files {
        let tear = long_tear(dice);
        match dice.roll(20) {
            0..3 if dice.roll(2) == 0 => drop(pair.step(Event::Offer {
                file,
                limits: LIMITS,
            })),
            0..3 => drop(pair.step(Event::OfferVerified {
                file,
                limits: LIMITS,
            })),
            3..9 => drop(pair.step_checked(harmed(dice, &tear), &check)),
            9..11 => drop(pair.step_checked(plain(dice, LIMITS), &check)),
            _ => {
                for _ in 0..=dice.roll(12) {
                    pair.step_checked(Event::Go(Fate::Pass), &check);
                }
                if refuses && dice.roll(2) == 0 {
                    pair.step(refusal(dice));
                }
            }
        }
    }
    Ok(())
}

/// The front of one of these files, which images must begin with.
fn check_of(dice: &mut Dice, files: &[Vec<u8>]) -> Vec<u8> {
    let file = dice.one_of(&files.iter().collect::<Vec<_>>());
    match dice.roll(5) {
        0..3 => file[..dice.one_of(&[1, 1, 2, 3])].to_vec(),
        3 => file[..file.len() - 16].to_vec(),
        _ => Vec::new(),
    }
}

/// A device of blocks of 700 bytes on units of 256: it holds bytes back between two blocks.
fn holding_back(dice: &mut Dice) -> Outcome<Pair<'static>> {
    let config = Config::new(IDS, functional(dice, 700), 1, 5, 10)?;
    let medium = SimMedium::with_sectors(Global, 2 * (512 + 2048), Unit::U256, 0)?;
    Ok(Pair::new(device_on(medium, config)?))
}

/// Two writes right behind each other, of which the second one fails, after so many actions that pass.
pub fn held_back(passes: u32) -> Outcome {
    let mut dice = Dice { state: 1 };
    let file: &'static [u8] = file_of(&mut dice, 1900)?.leak();
    let mut pair = holding_back(&mut dice)?;
    pair.step(Event::Offer {
        file,
        limits: LIMITS,
    });
    for _ in 0..passes {
        pair.step(Event::Go(Fate::Pass));
    }
    pair.step(Event::Go(Fate::Fail {
        writes: 1,
        tear: &[],
    }));
    Ok(())
}

/// A download that holds bytes back is given up after so many actions, by this event, and an action of the next download is harmed.
pub fn given_up(passes: u32, by: Event<'static, 'static>, next: u32) -> Outcome {
    let mut dice = Dice {
        state: u64::from(passes),
    };
    let file: &'static [u8] = file_of(&mut dice, 1900)?.leak();
    let tear = long_tear(&mut dice);
    let mut pair = holding_back(&mut dice)?;
    pair.step(Event::Offer {
        file,
        limits: LIMITS,
    });
    for _ in 0..passes {
        pair.step(Event::Go(Fate::Pass));
    }
    pair.step(by);
    pair.step(Event::Offer {
        file,
        limits: LIMITS,
    });
    for _ in 0..next {
        pair.step(Event::Go(Fate::Pass));
    }
    pair.step(harmed(&mut dice, &tear));
    for _ in 0..20 {
        pair.step(Event::Go(Fate::Pass));
    }
    Ok(())
}
