//! Devices that leave by themselves after the close, played by hand.

use super::dialogue::{
    AMPLE, APP_IDLE, BLOCK, CLOSE, DETACH, DEVICE, DFU_IDLE, GET_STATUS, MANIFEST, ONES, PART_0,
    SILENT, TOLERANT, VERIFIED, WRITTEN, limits,
};
use super::files::ALL_ONES;
use super::played::{Step, follow, leads, told, wants};
use super::verifying::is_verified;
use fustrelan::host::Seen::{Ack, Bytes, Left, Nothing, Restarted, Waited, WasReset};
use fustrelan::host::{Action, Host, Report, Seen};
use fustrelan::suffix::read;
use unit::Outcome;

const UNCONFIRMED: Action<'static> = Action::Done(Report::Unconfirmed);
const SPENT: Action<'static> = Action::Done(Report::RestartsSpent);

/// A status of dfuMANIFEST-SYNC.
const SYNC: Seen<'static> = Bytes(&[0, 10, 0, 0, 6, 0]);

/// A download to a device that leaves while it is waited for.
static UNTIL_IT_LEFT: [Step; 6] = [
    (GET_STATUS, DFU_IDLE),
    (BLOCK, Ack),
    (GET_STATUS, WRITTEN),
    (CLOSE, Ack),
    (GET_STATUS, MANIFEST),
    (Action::Wait(10), Left),
];

/// The comparison that follows.
static COMPARED: [Step; 6] = [
    (GET_STATUS, APP_IDLE),
    (DETACH, Ack),
    (Action::Wait(255), Waited),
    (GET_STATUS, DFU_IDLE),
    (PART_0, ONES),
    (Action::Reset, WasReset),
];

/// What is seen after the close before a device leaves, in Manifest, its wait and Last: of one that
/// says that it is tolerant.
static TOLERANTLY: [&[Seen<'static>]; 4] = [
    &[SYNC, Waited],
    &[MANIFEST],
    &[MANIFEST, Waited, Nothing],
    &[DFU_IDLE],
];

/// The same of another device.
static SILENTLY: [&[Seen<'static>]; 4] = [&[], &[SYNC], &[MANIFEST, Waited], &[DFU_IDLE]];

#[test]
fn download_is_unconfirmed() -> Outcome {
    let file = read(&ALL_ONES)?;
    let mut host = Host::download(&file, &SILENT, DEVICE, AMPLE)?;
    follow(&mut host, &UNTIL_IT_LEFT);
    wants(&host, UNCONFIRMED);
    for (device, paths) in [(&TOLERANT, &TOLERANTLY), (&SILENT, &SILENTLY)] {
        for path in paths {
            let mut host = Host::download(&file, device, DEVICE, AMPLE)?;
            told(&mut host, &[DFU_IDLE, Ack, WRITTEN, Ack]);
            told(&mut host, path);
            leads(&mut host, &[Left], UNCONFIRMED);
            leads(&mut host, &[Restarted, Left], UNCONFIRMED);
        }
    }
    Ok(())
}

#[test]
fn verified_download_is_compared() -> Outcome {
    is_verified(&SILENT, &UNTIL_IT_LEFT, &COMPARED)?;
    let file = read(&ALL_ONES)?;
    for (device, paths) in [(&TOLERANT, &TOLERANTLY), (&SILENT, &SILENTLY)] {
        for path in paths {
            let mut host = Host::download_verified(&file, device, DEVICE, AMPLE)?;
            told(&mut host, &[DFU_IDLE, Ack, WRITTEN, Ack]);
            told(&mut host, path);
            leads(&mut host, &[Left, DFU_IDLE], PART_0);
            leads(&mut host, &[ONES, WasReset], VERIFIED);
        }
    }
    Ok(())
}

/// A verified download has come as far as this, with one restart left. The device leaves and is found again, which leads to this; when it
/// leaves once more, no restart is left.
fn restarts_once(
    path: &[Seen<'_>],
    first: &[Seen<'_>],
    wanted: Action<'_>,
    second: &[Seen<'_>],
) -> Outcome {
    let file = read(&ALL_ONES)?;
    let mut host = Host::download_verified(&file, &TOLERANT, DEVICE, limits(100, 1))?;
    told(&mut host, path);
    leads(&mut host, first, wanted);
    leads(&mut host, second, SPENT);
    Ok(())
}

/// The host sees it twice: the first time is the last reset, and the second a restart, as any that comes
/// after the last reset.
#[test]
fn what_follows_is_a_restart() -> Outcome {
    let path = [DFU_IDLE, Ack, WRITTEN, Ack, MANIFEST, Left, DFU_IDLE];
    for again in [Left, Restarted] {
        restarts_once(&path, &[again, DFU_IDLE], PART_0, &[again])?;
    }
    Ok(())
}

/// A comparison is not reported if the device leaves before the reset that follows it.
#[test]
fn leaving_after_the_comparison_is_a_restart() -> Outcome {
    let path = [DFU_IDLE, Ack, WRITTEN, Ack, DFU_IDLE, WasReset, DFU_IDLE];
    for bytes in [ONES, Bytes(&[])] {
        restarts_once(&path, &[bytes, Left, DFU_IDLE], PART_0, &[bytes, Left])?;
    }
    Ok(())
}

/// Before the close was acknowledged the image is written again.
#[test]
fn leaving_before_the_close_is_a_restart() -> Outcome {
    for path in [
        &[DFU_IDLE, Ack][..],
        &[DFU_IDLE, Ack, WRITTEN],
        &[DFU_IDLE, Ack, WRITTEN, Nothing],
    ] {
        restarts_once(path, &[Left, DFU_IDLE], BLOCK, &[Left])?;
    }
    Ok(())
}

/// It counts as an action.
#[test]
fn leaving_spends_an_action() -> Outcome {
    let file = read(&ALL_ONES)?;
    let gave_up = Action::Done(Report::GaveUp);
    let path = [DFU_IDLE, Ack, WRITTEN, Ack, MANIFEST, Left];
    for (actions, wanted) in [(6, UNCONFIRMED), (5, gave_up)] {
        let mut host = Host::download(&file, &SILENT, DEVICE, limits(actions, 0))?;
        leads(&mut host, &path, wanted);
    }
    let mut host = Host::download_verified(&file, &SILENT, DEVICE, limits(6, 0))?;
    leads(&mut host, &path, gave_up);
    Ok(())
}
