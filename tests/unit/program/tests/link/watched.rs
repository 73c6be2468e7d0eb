//! What a link shows: what its host asks for, and what the device answered.

use super::bench::{USUAL, W, go, offer, pass, play, world};
use dfu::link::{Fate, World};
use fustrelan::device::Answer;
use fustrelan::host::{Action, Phase};
use fustrelan::slots::SimMedium;
use unit_program::Outcome;

/// The first action of a session is a GETSTATUS, and a device in appIDLE answers it with six bytes: OK, no time, state 0.
const GETSTATUS: [u8; 8] = [0xa1, 3, 0, 0, 0, 0, 6, 0];

/// The device gave this answer, with these bytes.
fn assert_answer(world: &World<'_, SimMedium>, answer: Answer, bytes: &[u8]) {
    match world.answered() {
        Some((found, out)) => assert!(found == answer && out == bytes),
        None => panic!("the device answered"),
    }
}

#[test]
fn a_host_asks_in_its_phase() -> Outcome {
    let mut world = world(USUAL)?;
    assert!(world.asks().is_none());
    play(&mut world, &[offer(&W)], None);
    match world.asks() {
        Some((Phase::Find, Action::Send { setup, .. })) => assert_eq!(setup, GETSTATUS),
        _ => panic!("the host finds the device first"),
    }
    Ok(())
}

#[test]
fn a_device_answered_last() -> Outcome {
    let mut world = world(USUAL)?;
    assert!(world.answered().is_none());
    play(&mut world, &[offer(&W), pass(1)], None);
    assert_answer(&world, Answer::Bytes, &[0; 6]);
    play(&mut world, &[pass(1)], None);
    assert_answer(&world, Answer::Ack, &[]);
    play(&mut world, &[pass(1)], None);
    assert!(world.answered().is_none());
    // An answer that is lost on its way back counts as well.
    play(&mut world, &[go(Fate::LostBack)], None);
    assert_answer(&world, Answer::Bytes, &[0, 0, 0, 0, 2, 0]);
    play(&mut world, &[go(Fate::LostOut)], None);
    assert!(world.answered().is_none());
    Ok(())
}
