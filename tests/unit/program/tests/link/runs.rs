//! Lists of events.

use super::bench::{
    EIGHT, Setup, UPLOAD, USUAL, W, medium_len, offer, pass, play, world, world_of,
};
use dfu::link::{Event, Fate, LinkFault, Stop, World, run};
use fustrelan::host::Report;
use fustrelan::memory::{self, Global};
use fustrelan::slots::SimMedium;
use unit_program::files::file_with;
use unit_program::{Outcome, refusing};

const PASS: Event<'static, 'static> = Event::Go(Fate::Pass);

/// All events came, and one session ended, with this report.
fn reported(answer: Result<memory::Vec<Report>, Stop>, report: Report) {
    match answer {
        Ok(reports) => assert_eq!(reports.as_slice(), [report].as_slice()),
        Err(stop) => panic!("stopped at {}", stop.at),
    }
}

/// The events before this one came, and this one is refused, since no session is live.
fn found_no_host(answer: Result<memory::Vec<Report>, Stop>, at: usize) {
    match answer {
        Ok(_) => panic!("event {at} is refused"),
        Err(stop) => {
            assert_eq!(stop.fault, LinkFault::NoHost);
            assert_eq!(stop.at, at);
            assert_eq!(stop.reports.as_slice(), [Report::Installed].as_slice());
        }
    }
}

#[test]
fn a_run_stops_at_the_first_refusal() -> Outcome {
    let mut world = world(USUAL)?;
    let mut events = [PASS; 15];
    events[0] = offer(&W).event;
    found_no_host(run(&mut world, Global, &events), 14);
    let events = &events[..14];
    reported(run(&mut world, Global, events), Report::Installed);
    reported(run(&mut world, Global, events), Report::Installed);
    Ok(())
}

#[test]
fn a_run_uploads() -> Outcome {
    let mut world = world_of(USUAL, &EIGHT)?;
    let mut events = [PASS; 8];
    events[0] = UPLOAD.event;
    reported(run(&mut world, Global, &events), Report::Uploaded);
    assert_eq!(world.uploaded(), EIGHT.as_slice());
    Ok(())
}

/// If an allocation is refused, there is no medium; or the run stops before its first event with no report, and the link is
/// unchanged. With enough memory the run reports.
#[test]
fn refused_allocation_in_a_run() -> Outcome {
    let made = refusing::after(0, || SimMedium::new(Global, medium_len(USUAL.capacity)));
    assert!(made.is_err());
    let mut events = [PASS; 14];
    events[0] = offer(&W).event;
    for works in 0.. {
        let mut world = world(USUAL)?;
        match refusing::after(works, || run(&mut world, Global, &events)) {
            Ok(reports) => {
                assert_eq!(
                    (works > 0, reports.as_slice()),
                    (true, [Report::Installed].as_slice())
                );
                break;
            }
            Err(stop) => {
                assert_eq!(
                    (stop.fault, stop.at, stop.reports.len()),
                    (LinkFault::NoMemory, 0, 0)
                );
                assert_eq!(world.step(PASS), Err(LinkFault::NoHost));
            }
        }
    }
    Ok(())
}

/// A file of so many zeros, for every device.
pub fn zeros(len: usize) -> Outcome<Vec<u8>> {
    let payload = vec![0u8; len];
    file_with(&payload)
}

/// A device that takes one byte in each block, and needs no time.
pub const BY_ONE: Setup = Setup {
    transfer: 1,
    busy_ms: 0,
    manifest_ms: 0,
    capacity: 65_537,
    ..USUAL
};

/// An upload of an image of 65,537 bytes, one byte in each part, has too many blocks.
fn fetches_too_much(world: &mut World<'_, SimMedium>) {
    play(world, &[UPLOAD, pass(65_539)], Some(Report::TooManyBlocks));
    assert!(world.uploaded().is_empty());
}

#[test]
fn block_numbers_wrap() -> Outcome {
    let bytes = zeros(65_537)?;
    let mut world = world(BY_ONE)?;
    play(
        &mut world,
        &[offer(&bytes), pass(131_081)],
        Some(Report::Installed),
    );
    assert_eq!(world.device().slots().active_len(), 65_537);
    fetches_too_much(&mut world);
    Ok(())
}
