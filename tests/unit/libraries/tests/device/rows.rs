//! Downloads row by row, with bytes worked out by hand.

use super::Cause::{Ask, Reset, Wait};
use super::named::{
    ADDRESS, BUSY, CLEARED, CLOSED, DETACHED, DONE, MANIFEST, NEW, PROG, RESET, STALLED_PKT, TAKEN,
    WRITE, WRITTEN,
};
use super::restart::restarted;
use super::uploads::CANNOT_UPLOAD;
use super::{BLOCK, CLOSE, FIRST, Row, SECOND, device, functional, play, played};
use fustrelan::device::{Answer, Config, ConfigFault};
use fustrelan::wire::{Code, Functional, State};
use unit::Outcome;
use unit::requests::{ABORT, DETACH, GET_STATE, GET_STATUS, IDS};

/// A whole download, with a detach that comes too late before it.
#[rustfmt::skip]
static DOWNLOADED: [Row; 24] = [
    (Ask(GET_STATUS, &[]), Answer::Bytes, &[0, 0, 0, 0, 0, 0], State::AppIdle),
    (Ask([0x21, 0, 100, 0, 0, 0, 0, 0], &[]), Answer::Ack, &[], State::AppDetach),
    (Wait(60), Answer::Ack, &[], State::AppDetach),
    // these two do not begin the time anew
    (Ask(GET_STATUS, &[]), Answer::Bytes, &[0, 0, 0, 0, 1, 0], State::AppDetach),
    (Ask(GET_STATE, &[]), Answer::Bytes, &[1], State::AppDetach),
    (Wait(39), Answer::Ack, &[], State::AppDetach),
    (Wait(1), Answer::Ack, &[], State::AppIdle),
    DETACHED, RESET, DONE,
    (Ask([0xa1, 3, 0, 0, 0, 0, 3, 0], &[]), Answer::Bytes, &[0, 0, 0], State::DfuIdle),
    (Ask([0xa1, 3, 0, 0, 1, 0, 6, 0], &[]), Answer::Stall, &[], State::DfuIdle),
    (Ask(FIRST, &[1, 2, 3]), Answer::Stall, &[], State::DfuIdle),
    TAKEN, BUSY,
    (Wait(4), Answer::Ack, &[], State::DownloadBusy),
    (Wait(1), Answer::Ack, &[], State::DownloadSync),
    WRITTEN, CLOSED, MANIFEST,
    (Wait(9), Answer::Ack, &[], State::Manifest),
    (Wait(1), Answer::Ack, &[], State::ManifestSync),
    DONE, NEW,
];

/// Requests that are errors in dfuIDLE.
#[rustfmt::skip]
static WRONG_REQUESTS: [Row; 6] = [
    (Ask([0x21, 4, 0, 0, 0, 0, 1, 0], &[0]), Answer::Stall, &[], State::Error),
    STALLED_PKT,
    (Ask(GET_STATE, &[]), Answer::Bytes, &[10], State::Error),
    CLEARED,
    (Ask(SECOND, &BLOCK), Answer::Stall, &[], State::Error),
    ADDRESS,
];

#[test]
fn a_download_goes_by_the_table() -> Outcome {
    let mut device = played((0x07, 1, 5, 10), &DOWNLOADED)?;
    play(&mut device, &WRONG_REQUESTS);
    assert!(device.code() == Code::Address);
    Ok(())
}

/// A download of four bytes that is closed.
#[rustfmt::skip]
pub static TOO_SHORT: [Row; 6] = [
    DETACHED, RESET, TAKEN, WRITTEN,
    (Ask(CLOSE, &[]), Answer::Stall, &[], State::Error),
    (Ask(GET_STATUS, &[]), Answer::Bytes, &[9, 0, 0, 0, 10, 0], State::Error),
];

/// A download to a device that waits for a reset at the end.
#[rustfmt::skip]
pub static NOT_TOLERANT: [Row; 9] = [
    DETACHED, RESET, TAKEN, WRITTEN, CLOSED, MANIFEST,
    (Wait(10), Answer::Ack, &[], State::ManifestWaitReset),
    (Ask(GET_STATUS, &[]), Answer::Stall, &[], State::ManifestWaitReset),
    (Reset, Answer::Ack, &[], State::AppIdle),
];

#[test]
fn a_device_that_is_not_tolerant_waits_for_a_reset() -> Outcome {
    let device = played((0x03, 1, 0, 10), &NOT_TOLERANT)?;
    assert_eq!(device.slots().active_len(), 4);
    Ok(())
}

/// The way to dfuDNLOAD-SYNC, with a block.
static FIRST_TAKEN: [Row; 3] = [DETACHED, RESET, TAKEN];

/// The block is not written, and the next one is.
static FAILED_BLOCK: [Row; 5] = [WRITE, CLEARED, TAKEN, WRITTEN, CLOSED];

#[test]
fn a_failed_write_is_told_in_the_same_answer() -> Outcome {
    let mut device = played((0x07, 1, 0, 0), &FIRST_TAKEN)?;
    device.arm(0, &[0xaa], false);
    play(&mut device, &FAILED_BLOCK);
    device.arm(0, &[0xaa], true);
    // The image is not put in place.
    play(&mut device, &[PROG]);
    device.disarm();
    assert_eq!(device.slots().active_len(), 1);
    let device = restarted(device);
    assert_eq!(device.state(), State::AppIdle);
    assert_eq!(device.slots().active_len(), 1);
    Ok(())
}

/// Fewer bytes are asked for than a status or a state has.
#[rustfmt::skip]
static SHORT_ANSWERS: [Row; 8] = [
    DETACHED, RESET, TAKEN,
    (Ask([0xa1, 5, 0, 0, 0, 0, 0, 0], &[]), Answer::Bytes, &[], State::DownloadSync),
    (Ask([0xa1, 3, 0, 0, 0, 0, 0, 0], &[]), Answer::Bytes, &[], State::DownloadBusy),
    (Wait(5), Answer::Ack, &[], State::DownloadSync),
    (Ask([0xa1, 3, 0, 0, 0, 0, 5, 0], &[]), Answer::Bytes, &[0, 0, 0, 0, 5], State::DownloadIdle),
    (Ask(ABORT, &[]), Answer::Ack, &[], State::DfuIdle),
];

/// A download of as many bytes as are the fewest.
static LONG_ENOUGH: [Row; 7] = [DETACHED, RESET, TAKEN, WRITTEN, CLOSED, DONE, NEW];

/// An image that is too short is a fault, a short answer makes its transition, and a device that cannot upload takes UPLOAD as a fault.
#[test]
fn devices_go_by_their_rows() -> Outcome {
    played((0x07, 5, 0, 10), &TOO_SHORT)?;
    played((0x07, 4, 0, 0), &LONG_ENOUGH)?;
    played((0x07, 1, 5, 10), &SHORT_ANSWERS)?;
    played((0x05, 1, 5, 10), &CANNOT_UPLOAD)?;
    Ok(())
}

/// A device that detaches by itself.
#[rustfmt::skip]
pub static WILLING: [Row; 3] = [
    DETACHED,
    (Wait(0), Answer::Ack, &[], State::AppDetach),
    (Wait(1), Answer::Ack, &[], State::DfuIdle),
];

/// A device with wDetachTimeOut 0.
#[rustfmt::skip]
static AT_ONCE: [Row; 3] = [
    DETACHED,
    (Wait(0), Answer::Ack, &[], State::AppDetach),
    (Wait(1), Answer::Ack, &[], State::AppIdle),
];

/// A device with the longest wDetachTimeOut.
#[rustfmt::skip]
static LATE: [Row; 5] = [
    (Ask([0x21, 0, 0xff, 0xff, 0, 0, 0, 0], &[]), Answer::Ack, &[], State::AppDetach),
    (Wait(65_534), Answer::Ack, &[], State::AppDetach),
    (Wait(4_294_967_295), Answer::Ack, &[], State::AppIdle),
    DETACHED,
    (Ask(DETACH, &[]), Answer::Stall, &[], State::AppIdle),
];

#[test]
fn a_device_detaches_in_time() -> Outcome {
    for (attributes, detach_ms, rows) in [
        (0x0f, 255, &WILLING[..]),
        (0x07, 0, &AT_ONCE[..]),
        (0x07, 65_535, &LATE[..]),
    ] {
        let functional = Functional {
            detach_ms,
            ..functional(attributes)
        };
        let mut device = device(functional, 1, 5, 10)?;
        play(&mut device, rows);
    }
    Ok(())
}

/// Arguments of `Config::new` with their first fault: the transfer size, bmAttributes, the fewest
/// bytes, the busy time and the manifestation time.
static REFUSED: [(u16, u8, u32, u32, u32, ConfigFault); 7] = [
    (0, 0x07, 0, 0x100_0000, 0, ConfigFault::BadTransfer),
    (4097, 0x07, 1, 5, 10, ConfigFault::BadTransfer),
    (8, 0x07, 0, 0x100_0000, 10, ConfigFault::BadPoll),
    (8, 0x07, 1, 5, 0x100_0000, ConfigFault::BadPoll),
    (8, 0x03, 1, 5, 0, ConfigFault::BadPoll),
    (8, 0x07, 0, 5, 0, ConfigFault::BadLeast),
    (4096, 0x07, 0x100_0001, 5, 0, ConfigFault::BadLeast),
];

#[test]
fn a_configuration_is_refused_by_its_first_fault() {
    for (transfer, attributes, least, busy_ms, manifest_ms, fault) in &REFUSED {
        let functional = Functional {
            transfer: *transfer,
            ..functional(*attributes)
        };
        let found = Config::new(IDS, functional, *least, *busy_ms, *manifest_ms).err();
        assert_eq!(found, Some(*fault));
    }
}

#[test]
fn a_configuration_is_shown_with_version_0110() -> Outcome {
    let device = device(functional(0x07), 0x100_0000, 0xff_ffff, 0)?;
    assert_eq!(device.ids(), IDS);
    let shown = Functional {
        version: 0x0110,
        ..functional(0x07)
    };
    assert_eq!(device.functional(), shown);
    Ok(())
}
