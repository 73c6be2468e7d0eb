//! Events that are played on links, by the tables of the standard and of this project's profile.

mod bench;
mod cuts;
mod events;
mod fates;
mod faults;
mod lists;
mod plain;
mod runs;
mod scripts;
mod sectors;
mod uploads;
mod verifying;
mod watched;

use bench::{SILENT, Setup, Turn, USUAL, W, offer, offer_within, pass, play, stands, world};
use dfu::link::World;
use fustrelan::host::Report;
use fustrelan::slots::SimMedium;
use fustrelan::wire::{Code, State};
use unit_program::Outcome;
use unit_program::refusing::Refusing;

#[global_allocator]
static ALLOCATOR: Refusing = Refusing;

const QUICK: Setup = Setup {
    busy_ms: 0,
    manifest_ms: 0,
    ..USUAL
};

/// A device, how many passes a download to it has, and what the last one reports.
#[rustfmt::skip]
static CLEAN: [(Setup, usize, Option<Report>); 5] = [
    (USUAL, 12, None),
    (USUAL, 13, Some(Report::Installed)),
    (Setup { attributes: 0x0f, ..USUAL }, 13, Some(Report::Installed)),
    (QUICK, 8, None),
    (QUICK, 9, Some(Report::Installed)),
];

/// After these turns a session has its payload in place, and the device is back in appIDLE if something is reported.
pub fn installs(
    setup: Setup,
    turns: &[Turn<'static, '_>],
    last: Option<Report>,
) -> Outcome<World<'static, SimMedium>> {
    let mut world = world(setup)?;
    play(&mut world, turns, last);
    stands(&world, state_after(last), Code::Ok, &[0xff; 4]);
    Ok(world)
}

/// The state of a device whose host reported this last: back in appIDLE, or still in dfuIDLE if nothing came yet.
fn state_after(last: Option<Report>) -> State {
    match last {
        Some(_) => State::AppIdle,
        None => State::DfuIdle,
    }
}

#[test]
fn clean_downloads_have_their_count() -> Outcome {
    for (setup, passes, last) in &CLEAN {
        installs(*setup, &[offer(&W), pass(*passes)], *last)?;
    }
    Ok(())
}

/// A device, how many passes a download to it has, and the report of the refusal.
#[rustfmt::skip]
static REFUSING: [(Setup, usize, Report); 2] = [
    (Setup { capacity: 3, ..USUAL }, 6, Report::Refused(Code::Address)),
    (Setup { least: 5, ..USUAL }, 10, Report::Refused(Code::NotDone)),
];

/// The device refuses the payload with the last of so many passes, and keeps its image.
fn refuses(setup: Setup, passes: usize, report: Report) -> Outcome {
    let mut world = world(setup)?;
    play(&mut world, &[offer(&W), pass(passes)], Some(report));
    assert_eq!(world.device().state(), State::Error);
    assert_eq!(world.device().slots().active_len(), 1);
    Ok(())
}

#[test]
fn devices_refuse_images() -> Outcome {
    for (setup, passes, report) in &REFUSING {
        refuses(*setup, *passes, *report)?;
    }
    Ok(())
}

#[test]
fn nothing_confirms_an_install_without_tolerance() -> Outcome {
    let last = Some(Report::Unconfirmed);
    installs(SILENT, &[offer(&W), pass(12)], last)?;
    Ok(())
}

#[test]
fn a_budget_is_spent() -> Outcome {
    let mut world = world(USUAL)?;
    let short = offer_within(&W, 9, 0);
    play(&mut world, &[short, pass(9)], Some(Report::GaveUp));
    play(&mut world, &[offer(&W), pass(3)], None);
    stands(&world, State::DfuIdle, Code::Ok, &[0xff; 4]);
    play(&mut world, &[pass(9)], Some(Report::Installed));
    Ok(())
}

#[test]
fn a_device_comes_back_without_a_session() -> Outcome {
    let mut world = world(USUAL)?;
    play(&mut world, &[offer(&W), pass(4)], None);
    let mut world = match world.into_device() {
        Ok(_) => panic!("a session is live"),
        Err(world) => world,
    };
    play(&mut world, &[pass(9)], Some(Report::Installed));
    match world.into_device() {
        Ok(device) => assert_eq!(device.slots().active_len(), 4),
        Err(_) => panic!("no session is live"),
    }
    Ok(())
}
