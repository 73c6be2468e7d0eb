//! What each fate, a time and a reset do to a download.

use super::bench::{AMPLE, Turn, USUAL, W, go, offer, offer_within, pass, play, stands, world};
use super::installs;
use dfu::link::{Event, Fate, World};
use fustrelan::host::Report;
use fustrelan::slots::SimMedium;
use fustrelan::wire::{Code, State};
use unit_program::Outcome;

const RESET: Turn<'static, 'static> = Turn {
    event: Event::Reset,
    times: 1,
};

/// How many actions pass, which event comes then, and how many more pass until the session ends.
static LATE: [(usize, Event<'static, 'static>, usize); 5] = [
    (4, Event::Go(Fate::LostBack), 9),
    (4, Event::Go(Fate::LostOut), 10),
    (4, Event::Go(Fate::TwiceLostBack), 13),
    (6, Event::Go(Fate::Slip(4)), 13),
    (2, Event::Time(255), 14),
];

#[test]
fn lost_and_late_requests_are_made_good() -> Outcome {
    for (before, event, after) in &LATE {
        let turn = Turn {
            event: *event,
            times: 1,
        };
        let turns = [offer(&W), pass(*before), turn, pass(*after)];
        installs(USUAL, &turns, Some(Report::Installed))?;
    }
    Ok(())
}

/// After these turns the device is in this state with its old image, and so many passes later the download has installed.
fn goes_on(turns: &[Turn<'static, '_>], state: State, code: Code, passes: usize) -> Outcome {
    let mut world = world(USUAL)?;
    play(&mut world, turns, None);
    stands(&world, state, code, &[0]);
    play(&mut world, &[pass(passes)], Some(Report::Installed));
    stands(&world, State::AppIdle, Code::Ok, &[0xff; 4]);
    Ok(())
}

#[test]
fn a_block_that_comes_twice_is_stalled() -> Outcome {
    let turns = [offer(&W), pass(4), go(Fate::Twice)];
    goes_on(&turns, State::Error, Code::StalledPkt, 12)
}

#[test]
fn a_status_whose_answer_is_lost_begins_anew() -> Outcome {
    let turns = [offer(&W), pass(9), go(Fate::LostBack), pass(4)];
    goes_on(&turns, State::DfuIdle, Code::Ok, 9)
}

/// This turn changes nothing without a session. After so many passes it ends a session that has no restart.
pub fn ends_a_session(
    turn: Turn<'static, '_>,
    passes: usize,
) -> Outcome<World<'static, SimMedium>> {
    let mut world = world(USUAL)?;
    let turns = [turn, offer(&W), pass(passes), turn];
    play(&mut world, &turns, Some(Report::RestartsSpent));
    stands(&world, State::AppIdle, Code::Ok, &[0]);
    Ok(world)
}

#[test]
fn a_reset_is_told_to_the_host() -> Outcome {
    let mut world = ends_a_session(RESET, 6)?;
    let once = offer_within(&W, AMPLE.actions, 1);
    let turns = [once, pass(6), RESET, pass(13)];
    play(&mut world, &turns, Some(Report::Installed));
    stands(&world, State::AppIdle, Code::Ok, &[0xff; 4]);
    Ok(())
}
