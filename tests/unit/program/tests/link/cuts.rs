//! Power cuts and failed writes.

use super::bench::{
    AMPLE, Turn, USUAL, W, go, offer, offer_within, pass, play, refused, stands, world,
};
use super::fates::ends_a_session;
use super::installs;
use dfu::link::{Event, Fate, LinkFault, World};
use fustrelan::host::Report;
use fustrelan::slots::SimMedium;
use fustrelan::wire::{Code, State};
use unit_program::Outcome;

const CUT: Turn<'static, 'static> = Turn {
    event: Event::Cut,
    times: 1,
};

static TEARS: [&[u8]; 4] = [&[], &[0x00], &[0xa5], &[0xff]];

static LONG: [u8; 64] = [0xa5; 64];

/// What a harmed write leaves: nothing new, a closed gate, an open one, erased bytes, or an open gate
/// at the front of a long range.
fn tear(number: u32) -> &'static [u8] {
    match TEARS.get(number as usize) {
        Some(tear) => *tear,
        None => &LONG,
    }
}

/// The image is the one before, `00`, or the whole new one, `ffffffff`.
fn is_old_or_new(world: &World<'_, SimMedium>) {
    let slots = world.device().slots();
    let mut found = [0x55; 4];
    match slots.active_len() {
        1 => {
            slots.read_active(0, &mut found[..1]);
            assert_eq!(found, [0x00, 0x55, 0x55, 0x55]);
        }
        4 => {
            slots.read_active(0, &mut found);
            assert_eq!(found, [0xff; 4]);
        }
        len => panic!("the image has {len} bytes"),
    }
}

/// The first actions of a download, and then one with this fate. They all pass, but if the download is
/// late, the seventh slips.
fn comes_to(
    world: &mut World<'static, SimMedium>,
    late: bool,
    before: usize,
    fate: Fate<'_>,
    report: Option<Report>,
) {
    play(world, &[offer(&W)], None);
    for action in 0..before {
        let fate = if late && action == 6 {
            Fate::Slip(4)
        } else {
            Fate::Pass
        };
        play(world, &[go(fate)], None);
    }
    play(world, &[go(fate)], report);
}

/// A cut after so many actions. The image is the old one or the new one, and a download installs.
fn cut_after(late: bool, before: usize, fate: Fate<'static>) -> Outcome {
    let mut world = world(USUAL)?;
    let spent = Some(Report::RestartsSpent);
    comes_to(&mut world, late, before, fate, spent);
    assert_eq!(world.device().state(), State::AppIdle);
    is_old_or_new(&world);
    play(&mut world, &[offer(&W), pass(13)], Some(Report::Installed));
    Ok(())
}

/// The same at each of the first writes with each tear.
fn cuts_after(late: bool, before: usize) -> Outcome {
    for number in 0..20u32 {
        let fate = Fate::Cut {
            writes: number / 5,
            tear: tear(number % 5),
        };
        cut_after(late, before, fate)?;
    }
    Ok(())
}

/// A write that fails or lies, by its number.
fn harm(number: u32) -> Fate<'static> {
    let writes = number / 5 % 4;
    let tear = tear(number % 5);
    if number < 20 {
        Fate::Fail { writes, tear }
    } else {
        Fate::Lie { writes, tear }
    }
}

/// The same with a write that fails or lies, which is reported later.
fn fails_after(before: usize) -> Outcome {
    for number in 0..40u32 {
        let mut world = world(USUAL)?;
        comes_to(&mut world, false, before, harm(number), None);
        is_old_or_new(&world);
    }
    Ok(())
}

#[test]
fn cuts_at_each_action_of_a_download() -> Outcome {
    for before in 0..13 {
        cuts_after(false, before)?;
    }
    Ok(())
}

#[test]
fn cuts_at_each_action_of_a_late_download() -> Outcome {
    for before in 0..20 {
        cuts_after(true, before)?;
    }
    Ok(())
}

#[test]
fn failures_and_lies_at_each_action_of_a_download() -> Outcome {
    for before in 0..12 {
        fails_after(before)?;
    }
    Ok(())
}

/// A cut in the write of the block, and one right after it. A tear lasts as long as its event.
#[test]
fn a_host_goes_on_after_a_cut() -> Outcome {
    let mut world = world(USUAL)?;
    let twice = offer_within(&W, AMPLE.actions, 2);
    play(&mut world, &[twice, pass(6)], None);
    for writes in [0, 1] {
        let tear = [0xaa, 0xbb];
        let fate = Fate::Cut {
            writes,
            tear: &tear,
        };
        play(&mut world, &[go(fate)], None);
        stands(&world, State::AppIdle, Code::Ok, &[0]);
        play(&mut world, &[pass(6)], None);
    }
    play(&mut world, &[pass(7)], Some(Report::Installed));
    stands(&world, State::AppIdle, Code::Ok, &[0xff; 4]);
    Ok(())
}

#[test]
fn a_cut_between_actions_is_told_to_the_host() -> Outcome {
    let mut world = ends_a_session(CUT, 8)?;
    let nowhere = Fate::Cut {
        writes: 0,
        tear: &[],
    };
    refused(&mut world, Event::Go(nowhere), LinkFault::NoHost);
    Ok(())
}

/// The medium works again after the action, whether or not a write was harmed in it.
#[test]
fn a_failure_and_a_lie_are_over_with_their_action() -> Outcome {
    let fails = Fate::Fail {
        writes: 0,
        tear: &[],
    };
    let lies = Fate::Lie {
        writes: 0,
        tear: &[0x5a],
    };
    let turns = [offer(&W), pass(4), go(lies), go(fails), pass(7)];
    installs(USUAL, &turns, Some(Report::Installed))?;
    Ok(())
}
