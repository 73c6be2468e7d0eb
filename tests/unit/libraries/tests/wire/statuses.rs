//! Statuses that were worked out by hand from the standard's table.

use fustrelan::wire::{Code, State, Status, WireFault, reread_status};
use unit::Outcome;

/// What was read or made, and what it has to be.
fn is_status(made: Result<Status, WireFault>, wanted: Result<Status, WireFault>) {
    assert_eq!(made, wanted);
}

/// OK, 5 ms, dfuDNBUSY.
static BUSY: [u8; 6] = [0x00, 0x05, 0x00, 0x00, 0x04, 0x00];

/// The same with the number of a string.
static NAMED: [u8; 6] = [0x00, 0x05, 0x00, 0x00, 0x04, 0x77];

#[test]
fn status_is_read_and_written_with_no_string() -> Outcome {
    let status = Status::decode(&BUSY)?;
    assert_eq!(
        (status.code(), status.poll_ms(), status.state()),
        (Code::Ok, 5, State::DownloadBusy)
    );
    assert_eq!(status.encode(), BUSY);
    is_status(Status::new(Code::Ok, 5, State::DownloadBusy), Ok(status));
    is_status(Status::decode(&NAMED), Ok(status));
    is_status(reread_status(&status), Ok(status));
    Ok(())
}

/// Bytes, and their first fault.
static FAULTS: [(&[u8], WireFault); 5] = [
    (&[], WireFault::Short),
    (&[0x10, 0x00, 0x00, 0x00, 0x0b], WireFault::Short),
    (&[0x10, 0x00, 0x00, 0x00, 0x0b, 0x00, 0x00], WireFault::Long),
    (
        &[0x10, 0x00, 0x00, 0x00, 0x0b, 0x00],
        WireFault::UnknownCode,
    ),
    (
        &[0x00, 0x00, 0x00, 0x00, 0x0b, 0x00],
        WireFault::UnknownState,
    ),
];

#[test]
fn status_faults_come_in_their_order() {
    for (bytes, fault) in &FAULTS {
        is_status(Status::decode(bytes), Err(*fault));
    }
}

/// Codes and poll times, and their status in dfuERROR.
static POLLS: [(Code, u32, [u8; 6]); 2] = [
    (
        Code::StalledPkt,
        16_777_215,
        [0x0f, 0xff, 0xff, 0xff, 0x0a, 0x00],
    ),
    (
        Code::Write,
        0x0001_0203,
        [0x03, 0x03, 0x02, 0x01, 0x0a, 0x00],
    ),
];

#[test]
fn poll_time_fits_three_bytes() -> Outcome {
    for (code, poll_ms, bytes) in &POLLS {
        let status = Status::new(*code, *poll_ms, State::Error)?;
        assert_eq!(status.encode(), *bytes);
    }
    let too_long = Status::new(Code::Ok, 16_777_216, State::DfuIdle);
    is_status(too_long, Err(WireFault::PollTooLong));
    Ok(())
}
