//! Uploads of the active image, and sessions that are aborted.

use super::bench::{
    EIGHT, Setup, Turn, UPLOAD, USUAL, W, go, offer, pass, play, refused, stands, world, world_of,
};
use super::runs::BY_ONE;
use dfu::link::{Event, Fate, LinkFault, OfferFault};
use fustrelan::host::{HostFault, Report};
use fustrelan::wire::{Code, State};
use unit_program::Outcome;

const ABORT: Turn<'static, 'static> = Turn {
    event: Event::Abort,
    times: 1,
};

#[test]
fn an_upload_gives_the_image_of_its_time() -> Outcome {
    let mut world = world_of(USUAL, &EIGHT)?;
    play(&mut world, &[UPLOAD, pass(6)], None);
    assert!(world.uploaded().is_empty());
    play(&mut world, &[pass(1)], Some(Report::Uploaded));
    assert_eq!(world.uploaded(), EIGHT.as_slice());
    play(&mut world, &[offer(&W), pass(13)], Some(Report::Installed));
    assert_eq!(world.uploaded(), EIGHT.as_slice());
    play(&mut world, &[UPLOAD, pass(6)], Some(Report::Uploaded));
    assert_eq!(world.uploaded(), [0xff; 4].as_slice());
    stands(&world, State::AppIdle, Code::Ok, &[0xff; 4]);
    Ok(())
}

/// The image, how many actions pass, the fate of the next one, and how many pass until the session ends.
static LOSSES: [(&[u8], usize, Fate<'static>, usize); 5] = [
    (&EIGHT, 4, Fate::Twice, 6),
    (&EIGHT, 4, Fate::LostOut, 4),
    (&EIGHT, 5, Fate::LostBack, 4),
    (&EIGHT, 5, Fate::Slip(7), 1),
    (&[0], 4, Fate::Twice, 1),
];

/// An upload gives the image although an action in it has this fate.
fn goes_on(image: &[u8], before: usize, fate: Fate<'static>, after: usize) -> Outcome {
    let mut world = world_of(USUAL, image)?;
    play(
        &mut world,
        &[UPLOAD, pass(before), go(fate), pass(after)],
        Some(Report::Uploaded),
    );
    assert_eq!(world.uploaded(), image);
    Ok(())
}

#[test]
fn uploads_go_on_after_losses() -> Outcome {
    for (image, before, fate, after) in &LOSSES {
        goes_on(*image, *before, *fate, *after)?;
    }
    Ok(())
}

#[test]
fn an_upload_takes_65_534_full_parts() -> Outcome {
    let by_one = Setup {
        capacity: 65_534,
        ..BY_ONE
    };
    let image = vec![7u8; 65_534];
    let mut world = world_of(by_one, &image)?;
    play(&mut world, &[UPLOAD, pass(65_540)], Some(Report::Uploaded));
    assert_eq!(world.uploaded().len(), 65_534);
    Ok(())
}

/// This session with a device that doesn't upload is refused, and nothing changes.
pub fn cannot_upload(session: Event<'static, 'static>) -> Outcome {
    let mute = Setup {
        attributes: 0x05,
        ..USUAL
    };
    let mut world = world(mute)?;
    let cannot = LinkFault::BadOffer(OfferFault::Host(HostFault::CannotUpload));
    refused(&mut world, session, cannot);
    stands(&world, State::AppIdle, Code::Ok, &[0]);
    Ok(())
}

#[test]
fn an_upload_needs_a_device_that_can_upload() -> Outcome {
    cannot_upload(UPLOAD.event)
}

#[test]
fn a_session_is_the_only_one() -> Outcome {
    let mut world = world(USUAL)?;
    play(&mut world, &[UPLOAD, pass(2)], None);
    refused(&mut world, UPLOAD.event, LinkFault::HostBusy);
    refused(&mut world, offer(&W).event, LinkFault::HostBusy);
    play(&mut world, &[pass(4)], Some(Report::Uploaded));
    Ok(())
}

#[test]
fn a_session_is_given_up() -> Outcome {
    let mut world = world(USUAL)?;
    refused(&mut world, Event::Abort, LinkFault::NoHost);
    play(&mut world, &[offer(&W), pass(8), ABORT], None);
    play(&mut world, &[pass(1)], Some(Report::Aborted));
    stands(&world, State::DfuIdle, Code::Ok, &[0]);
    play(
        &mut world,
        &[UPLOAD, pass(2), ABORT, ABORT, go(Fate::LostOut)],
        Some(Report::Aborted),
    );
    assert!(world.uploaded().is_empty());
    refused(&mut world, Event::Abort, LinkFault::NoHost);
    Ok(())
}
