//! Parts that belong to a session or do not, and uploads into a caller's buffer.

use super::dialogue::{AMPLE, DEVICE, DFU_IDLE, TOLERANT};
use super::files::NINE;
use fustrelan::host::Phase::{Ask, AskLast, Block, Close, Compare, Fetch, Find, Poll, WaitPoll};
use fustrelan::host::Seen::{Bytes, WasReset};
use fustrelan::host::{Action, Goal, Parts, Phase, Report, Session};
use fustrelan::suffix::read;
use unit::Outcome;

/// The image has 11 bytes: what is kept of it in a room, and how the session ends.
fn fetch(room: &mut [u8]) -> Outcome<(Action<'static>, usize)> {
    let mut session = Session::upload(&TOLERANT, AMPLE)?;
    let mut kept = 0;
    for seen in [DFU_IDLE, Bytes(b"12345678"), Bytes(b"9ab"), WasReset] {
        kept = session.take(room, kept, seen);
    }
    Ok((session.next(), kept))
}

#[test]
fn image_finds_room_or_there_is_none() -> Outcome {
    let mut room = *b"............";
    assert_eq!(fetch(&mut room)?, (Action::Done(Report::Uploaded), 11));
    assert_eq!(&room, b"123456789ab.");
    let mut room = *b"...........";
    assert_eq!(fetch(&mut room)?, (Action::Done(Report::Uploaded), 11));
    assert_eq!(&room, b"123456789ab");
    let mut room = *b"..........";
    assert_eq!(fetch(&mut room)?, (Action::Done(Report::NoMemory), 8));
    assert_eq!(&room, b"12345678..");
    Ok(())
}

/// A download of two blocks.
fn download() -> Outcome<Parts<'static>> {
    let file = read(&NINE)?;
    Ok(Session::download(&file, &TOLERANT, DEVICE, AMPLE)?.parts())
}

/// Whether parts belong to a session, in each of these phases.
fn has(parts: Parts<'_>, phases: &[Phase], wanted: bool) {
    for &phase in phases {
        let parts = Parts { phase, ..parts };
        assert_eq!(Session::from_parts(parts).is_some(), wanted);
    }
}

/// Phases of blocks that nine bytes have by eights.
static WITHIN: [Phase; 4] = [Block(1), Ask(1), Poll(1), WaitPoll(1, 5)];

/// Phases of blocks after the last.
static AFTER: [Phase; 4] = [Block(2), Ask(2), Poll(2), WaitPoll(2, 5)];

#[test]
fn phases_have_what_they_need() -> Outcome {
    let load = download()?;
    let fetch = Parts {
        goal: Goal::Fetch,
        ..load
    };
    has(load, &WITHIN, true);
    has(load, &AFTER, false);
    has(load, &[Find, Close, AskLast, Compare(65_534)], true);
    has(load, &[Block(usize::MAX), Fetch(0), Compare(65_535)], false);
    has(fetch, &[Find, Fetch(0), Fetch(65_534)], true);
    has(fetch, &[Block(0), Close, AskLast, Fetch(65_535)], false);
    Ok(())
}

#[test]
fn sessions_have_something_to_do() -> Outcome {
    let load = download()?;
    let by_none = Parts {
        transfer: 0,
        ..load
    };
    has(by_none, &[Find], false);
    for goal in [Goal::Load(&[]), Goal::Verify(&[]), Goal::Compare(&[])] {
        has(Parts { goal, ..load }, &[Find], false);
    }
    for goal in [
        Goal::Load(b"1"),
        Goal::Verify(b"1"),
        Goal::Compare(b"1"),
        Goal::Fetch,
    ] {
        has(Parts { goal, ..load }, &[Find], true);
    }
    Ok(())
}
