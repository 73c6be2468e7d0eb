//! Sessions that compare the active image with what they installed.

use super::bench::{AMPLE, SILENT, Setup, Turn, USUAL, W, go, pass, play, stands, world, world_of};
use super::installs;
use super::runs::{BY_ONE, zeros};
use super::uploads::cannot_upload;
use dfu::link::{Event, Fate, World};
use fustrelan::host::{Limits, Report};
use fustrelan::slots::SimMedium;
use fustrelan::wire::{Code, State};
use unit_program::Outcome;

fn verify(file: &[u8]) -> Turn<'_, 'static> {
    Turn {
        event: Event::OfferVerified {
            file,
            limits: AMPLE,
        },
        times: 1,
    }
}

/// A device, how many passes a session with it has, and what the last one reports.
#[rustfmt::skip]
static VERIFIED: [(Setup, usize, Option<Report>); 8] = [
    (USUAL, 18, None),
    (USUAL, 19, Some(Report::Verified)),
    (Setup { attributes: 0x0f, ..USUAL }, 19, Some(Report::Verified)),
    (Setup { transfer: 4, ..USUAL }, 20, Some(Report::Verified)),
    (Setup { transfer: 3, ..USUAL }, 24, Some(Report::Verified)),
    (Setup { busy_ms: 0, manifest_ms: 0, ..USUAL }, 15, Some(Report::Verified)),
    (SILENT, 17, None),
    (SILENT, 18, Some(Report::Verified)),
];

/// The bytes that are read to compare are not kept as an upload.
#[test]
fn each_device_that_uploads_is_verified() -> Outcome {
    for (setup, passes, last) in &VERIFIED {
        let world = installs(*setup, &[verify(&W), pass(*passes)], *last)?;
        assert!(world.uploaded().is_empty());
    }
    Ok(())
}

static OTHERS: [&[u8]; 5] = [&[0], &[], &[0xff; 3], &[0xff; 5], &[0xff; 8]];

/// A device that still has this image when it is compared is found to differ.
fn differs(image: &[u8]) -> Outcome {
    let mut world = world_of(SILENT, image)?;
    play(
        &mut world,
        &[verify(&W), pass(10), go(Fate::Slip(4)), pass(7)],
        Some(Report::Different),
    );
    stands(&world, State::AppIdle, Code::Ok, image);
    Ok(())
}

#[test]
fn a_device_that_lost_the_image_differs() -> Outcome {
    for image in &OTHERS {
        differs(*image)?;
    }
    Ok(())
}

/// The report of a session that ends within so many passes.
fn ends(world: &mut World<'_, SimMedium>, passes: usize) -> Option<Report> {
    for _ in 0..passes {
        match world.step(Event::Go(Fate::Pass)) {
            Ok(None) => {}
            Ok(report) => return report,
            Err(fault) => panic!("a pass is refused: {fault}"),
        }
    }
    None
}

#[rustfmt::skip]
static FATES: [Fate<'static>; 7] = [
    Fate::LostOut,
    Fate::LostBack,
    Fate::Twice,
    Fate::TwiceLostBack,
    Fate::Cut { writes: 0, tear: &[] },
    Fate::Fail { writes: 9, tear: &[] },
    Fate::Lie { writes: 9, tear: &[] },
];

#[rustfmt::skip]
static DEVICES: [Setup; 3] = [USUAL, SILENT, Setup { transfer: 2, ..USUAL }];

/// A session with one restart.
const ONCE: Turn<'static, 'static> = Turn {
    event: Event::OfferVerified {
        file: &W,
        limits: Limits {
            actions: 80,
            restarts: 1,
        },
    },
    times: 1,
};

/// One action has this fate, after each number of passes in turn, and the session still ends with Verified.
fn is_verified(setup: Setup, fate: Fate<'static>) -> Outcome {
    for before in 0..17 {
        let mut world = world(setup)?;
        play(&mut world, &[ONCE, pass(before), go(fate)], None);
        let report = ends(&mut world, 60);
        assert_eq!(report, Some(Report::Verified), "{fate:?} after {before}");
        stands(&world, State::AppIdle, Code::Ok, &[0xff; 4]);
    }
    Ok(())
}

#[test]
fn one_loss_anywhere_changes_no_verdict() -> Outcome {
    for fate in &FATES {
        for setup in &DEVICES {
            is_verified(*setup, *fate)?;
        }
    }
    Ok(())
}

#[test]
fn only_a_device_that_uploads_is_verified() -> Outcome {
    cannot_upload(verify(&W).event)
}

/// A session with a payload of so many bytes, in blocks of one byte, ends with this report after so many passes.
fn by_ones(len: usize, passes: usize, report: Report) -> Outcome {
    let bytes = zeros(len)?;
    let mut world = world(BY_ONE)?;
    play(&mut world, &[verify(&bytes), pass(passes)], Some(report));
    assert_eq!(world.device().slots().active_len() as usize, len);
    Ok(())
}

#[test]
fn a_comparison_takes_65_534_full_blocks() -> Outcome {
    by_ones(65_534, 196_615, Report::Verified)?;
    by_ones(65_535, 196_616, Report::TooManyBlocks)?;
    Ok(())
}
