//! Downloads that are verified, played by hand.

use super::CLEAN;
use super::dialogue::{
    AMPLE, APP_IDLE, BLOCK, DETACH, DEVICE, DFU_IDLE, GET_STATUS, MANIFEST, ONES, PART_0, SILENT,
    TOLERANT, VERIFIED, WRITTEN, descriptor, fetch, limits,
};
use super::files::{ALL_ONES, EMPTY, FOR_ZERO, NINE, zeros};
use super::played::{Step, follow, leads, told, wants};
use fustrelan::host::Seen::{Ack, Bytes, Restarted, Waited, WasReset};
use fustrelan::host::{Action, Host, HostFault, Report, Seen};
use fustrelan::suffix::read;
use fustrelan::wire::Functional;
use unit::Outcome;

const DIFFERENT: Action<'static> = Action::Done(Report::Different);

/// The comparison that follows a clean download.
static COMPARED: [Step; 6] = [
    (GET_STATUS, APP_IDLE),
    (DETACH, Ack),
    (Action::Reset, WasReset),
    (GET_STATUS, DFU_IDLE),
    (PART_0, ONES),
    (Action::Reset, WasReset),
];

/// What is seen of a download of one block by a device that closes at once.
static LOADED: [Seen<'static>; 6] = [DFU_IDLE, Ack, WRITTEN, Ack, DFU_IDLE, WasReset];

/// A verified download follows this dialogue and that of its comparison, and is Verified.
pub fn is_verified(device: &Functional, loaded: &[Step], compared: &[Step]) -> Outcome {
    let file = read(&ALL_ONES)?;
    let mut host = Host::download_verified(&file, device, DEVICE, AMPLE)?;
    follow(&mut host, loaded);
    follow(&mut host, compared);
    wants(&host, VERIFIED);
    Ok(())
}

#[test]
fn clean_verified_download_takes_nineteen_actions() -> Outcome {
    is_verified(&TOLERANT, &CLEAN, &COMPARED)
}

#[test]
fn device_that_is_not_tolerant_is_verified_too() -> Outcome {
    let file = read(&ALL_ONES)?;
    for (bytes, action) in [
        (ONES, VERIFIED),
        (Bytes(&[0xff, 0xff, 0xff]), DIFFERENT),
        (Bytes(&[0xff, 0xff, 0xff, 0xfe]), DIFFERENT),
        (Bytes(&[]), DIFFERENT),
    ] {
        let mut host = Host::download_verified(&file, &SILENT, DEVICE, AMPLE)?;
        let path = [DFU_IDLE, Ack, WRITTEN, Ack, MANIFEST, Waited];
        leads(&mut host, &path, Action::Reset);
        leads(&mut host, &[WasReset, DFU_IDLE, bytes], Action::Reset);
        leads(&mut host, &[WasReset], action);
    }
    Ok(())
}

/// A restart before the last reset goes on as a download, one after it as a comparison, from its
/// first part.
#[test]
fn restart_goes_on_with_what_is_left_to_do() -> Outcome {
    let file = read(&ALL_ONES)?;
    let by_four = descriptor(true, true, 4);
    let mut host = Host::download_verified(&file, &by_four, DEVICE, limits(100, 2))?;
    let path = [DFU_IDLE, Ack, WRITTEN, Ack, DFU_IDLE, Restarted, DFU_IDLE];
    leads(&mut host, &path, BLOCK);
    let path = [Ack, WRITTEN, Ack, DFU_IDLE, WasReset, DFU_IDLE, ONES];
    leads(&mut host, &path, fetch(1, 4));
    leads(&mut host, &[Restarted, DFU_IDLE], fetch(0, 4));
    leads(&mut host, &[ONES, Bytes(&[]), WasReset], VERIFIED);
    Ok(())
}

/// A payload of full blocks ends by an empty answer; a full one there is another image.
#[test]
fn full_blocks_end_by_an_empty_answer() -> Outcome {
    let file = read(&ALL_ONES)?;
    let by_four = descriptor(true, true, 4);
    for (bytes, action) in [
        (Bytes(&[]), VERIFIED),
        (ONES, DIFFERENT),
        (Bytes(&[0xff]), DIFFERENT),
    ] {
        let mut host = Host::download_verified(&file, &by_four, DEVICE, AMPLE)?;
        told(&mut host, &LOADED);
        leads(&mut host, &[DFU_IDLE, ONES, bytes, WasReset], action);
    }
    Ok(())
}

/// Tells a host that sends a file of zeros by blocks of one byte of a clean download, and then so
/// many parts of it.
fn verify_zeros(host: &mut Host<'_>, blocks: u32, parts: u16) {
    host.take(DFU_IDLE);
    for _ in 0..blocks {
        told(host, &[Ack, WRITTEN]);
    }
    told(host, &[Ack, DFU_IDLE, WasReset, DFU_IDLE]);
    for number in 0..parts {
        wants(host, fetch(number, 1));
        host.take(Bytes(&[0]));
    }
}

#[test]
fn comparison_has_less_than_65_535_full_parts() -> Outcome {
    let by_one = descriptor(true, true, 1);
    let bytes = zeros(65_534);
    let mut host = Host::download_verified(&read(&bytes)?, &by_one, DEVICE, AMPLE)?;
    verify_zeros(&mut host, 65_534, 65_534);
    leads(&mut host, &[Bytes(&[]), WasReset], VERIFIED);
    let bytes = zeros(65_536);
    let mut host = Host::download_verified(&read(&bytes)?, &by_one, DEVICE, AMPLE)?;
    verify_zeros(&mut host, 65_536, 65_535);
    wants(&host, Action::Done(Report::TooManyBlocks));
    Ok(())
}

#[test]
fn refusals_of_a_verified_download_come_in_their_order() -> Outcome {
    let mute = descriptor(false, false, 0);
    let kept = descriptor(true, false, 0);
    let narrow = descriptor(true, true, 0);
    let refused = [
        (read(&EMPTY)?, mute, Some(HostFault::EmptyPayload)),
        (read(&FOR_ZERO)?, mute, Some(HostFault::WrongTarget)),
        (read(&NINE)?, mute, Some(HostFault::CannotDownload)),
        (read(&NINE)?, kept, Some(HostFault::CannotUpload)),
        (read(&NINE)?, narrow, Some(HostFault::BadDescriptor)),
        (read(&NINE)?, TOLERANT, None),
    ];
    for (file, functional, fault) in &refused {
        assert_eq!(
            Host::download_verified(file, functional, DEVICE, AMPLE).err(),
            *fault
        );
    }
    Ok(())
}
