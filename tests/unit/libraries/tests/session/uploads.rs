//! Uploads played by hand.

use super::dialogue::{
    AMPLE, APP_IDLE, DETACH, DFU_IDLE, GET_STATUS, PART_0, TOLERANT, descriptor, fetch, limits,
};
use super::played::{Step, follow, leads, shows, told, wants};
use fustrelan::host::Seen::{Ack, Bytes, Nothing, Restarted, Stall, Waited, WasReset};
use fustrelan::host::{Action, Host, HostFault, Report, Seen};
use fustrelan::memory::Global;
use unit::{Outcome, refusing};

const UPLOADED: Action<'static> = Action::Done(Report::Uploaded);
const FIRST: Seen<'static> = Bytes(&[0, 1, 2, 3, 4, 5, 6, 7]);
const SECOND: Seen<'static> = Bytes(&[8, 9, 10, 11, 12, 13, 14, 15]);
const THIRD: Seen<'static> = Bytes(&[16, 17, 18]);
const IMAGE: [u8; 19] = [
    0, 1, 2, 3, 4, 5, 6, 7, 8, 9, 10, 11, 12, 13, 14, 15, 16, 17, 18,
];

/// An upload of one byte.
static SHORT: [Step; 6] = [
    (GET_STATUS, APP_IDLE),
    (DETACH, Ack),
    (Action::Reset, WasReset),
    (GET_STATUS, DFU_IDLE),
    (PART_0, Bytes(&[7])),
    (Action::Reset, WasReset),
];

#[test]
fn short_first_part_is_the_image() -> Outcome {
    let mut host = Host::upload(Global, &TOLERANT, AMPLE)?;
    follow(&mut host, &SHORT);
    wants(&host, UPLOADED);
    shows(&host, &[7]);
    host.take(Restarted);
    host.abort();
    wants(&host, UPLOADED);
    shows(&host, &[7]);
    Ok(())
}

#[test]
fn full_parts_go_on_until_a_short_one() -> Outcome {
    let mut host = Host::upload(Global, &TOLERANT, AMPLE)?;
    host.take(DFU_IDLE);
    for (number, part) in [(0, FIRST), (1, SECOND), (2, THIRD)] {
        wants(&host, fetch(number, 8));
        host.take(part);
    }
    wants(&host, Action::Reset);
    host.take(WasReset);
    wants(&host, UPLOADED);
    shows(&host, &IMAGE);
    Ok(())
}

#[test]
fn empty_part_ends_an_image_of_full_parts() -> Outcome {
    let mut host = Host::upload(Global, &TOLERANT, AMPLE)?;
    told(&mut host, &[DFU_IDLE, FIRST]);
    shows(&host, &[0, 1, 2, 3, 4, 5, 6, 7]);
    leads(&mut host, &[Bytes(&[]), WasReset], UPLOADED);
    shows(&host, &[0, 1, 2, 3, 4, 5, 6, 7]);
    Ok(())
}

/// A lost answer, a stall (of a device that was asked twice), an answer that is too long, and
/// what doesn't fit the request: each sends the host back to find the device. Nothing is kept
/// then, and the next image has nothing of this one.
#[test]
fn what_is_no_part_begins_anew() -> Outcome {
    let long = Bytes(&[0, 1, 2, 3, 4, 5, 6, 7, 8]);
    for seen in [Nothing, Stall, long, Ack, Waited, WasReset] {
        let mut host = Host::upload(Global, &TOLERANT, AMPLE)?;
        leads(&mut host, &[DFU_IDLE, SECOND, seen], GET_STATUS);
        shows(&host, &[]);
        let sends = Bytes(&[0, 0, 0, 0, 9, 0]);
        leads(&mut host, &[sends, Ack, DFU_IDLE], fetch(0, 8));
        shows(&host, &[]);
        leads(&mut host, &[FIRST, THIRD, WasReset], UPLOADED);
        shows(&host, &[0, 1, 2, 3, 4, 5, 6, 7, 16, 17, 18]);
    }
    Ok(())
}

#[test]
fn restart_throws_away_what_was_kept() -> Outcome {
    let once = limits(20, 1);
    for path in [&[DFU_IDLE, FIRST][..], &[DFU_IDLE, FIRST, THIRD]] {
        let mut host = Host::upload(Global, &TOLERANT, once)?;
        told(&mut host, path);
        leads(&mut host, &[Restarted], GET_STATUS);
        shows(&host, &[]);
        leads(&mut host, &[DFU_IDLE, THIRD, WasReset], UPLOADED);
        shows(&host, &[16, 17, 18]);
        let mut host = Host::upload(Global, &TOLERANT, once)?;
        told(&mut host, path);
        let again = [Restarted, DFU_IDLE, FIRST, Restarted];
        leads(&mut host, &again, Action::Done(Report::RestartsSpent));
        shows(&host, &[]);
    }
    Ok(())
}

/// Tells a host that asks by parts of one byte so many of them.
fn tell_parts(host: &mut Host<'_>, parts: u16) {
    host.take(DFU_IDLE);
    for number in 0..parts {
        wants(host, fetch(number, 1));
        host.take(Bytes(&[5]));
    }
}

#[test]
fn image_has_less_than_65_535_full_parts() -> Outcome {
    let by_one = descriptor(true, true, 1);
    let mut host = Host::upload(Global, &by_one, AMPLE)?;
    tell_parts(&mut host, 65_534);
    leads(&mut host, &[Bytes(&[]), WasReset], UPLOADED);
    assert_eq!(host.uploaded().len(), 65_534);
    let mut host = Host::upload(Global, &by_one, AMPLE)?;
    tell_parts(&mut host, 65_535);
    wants(&host, Action::Done(Report::TooManyBlocks));
    shows(&host, &[]);
    Ok(())
}

#[test]
fn refusals_of_an_upload_come_in_their_order() {
    let refused = [
        (descriptor(true, false, 0), Some(HostFault::CannotUpload)),
        (descriptor(false, true, 0), Some(HostFault::BadDescriptor)),
        (descriptor(false, true, 8), None),
    ];
    for (functional, fault) in &refused {
        assert_eq!(Host::upload(Global, functional, AMPLE).err(), *fault);
    }
}

/// If an allocation is refused, the report is NoMemory, and no part is shown; else the image
/// is fetched.
#[test]
fn part_is_kept_or_there_is_no_memory() -> Outcome {
    let all = [DFU_IDLE, FIRST, SECOND, THIRD, WasReset];
    for works in [0, 1] {
        let mut host = Host::upload(Global, &TOLERANT, AMPLE)?;
        refusing::after(works, || told(&mut host, &all));
        wants(&host, Action::Done(Report::NoMemory));
        shows(&host, &[]);
    }
    let mut host = Host::upload(Global, &TOLERANT, AMPLE)?;
    leads(&mut host, &all, UPLOADED);
    shows(&host, &IMAGE);
    Ok(())
}
