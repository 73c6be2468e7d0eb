//! Which modes go with what was put in a slot store: for a caller that keeps a device in parts.

use fustrelan::device::{DeviceState, PutSoFar, is_filled};
use fustrelan::wire::Code;

/// States of a device on a store with 4 of 64 bytes put, the length of its block, and whether it is a device.
#[rustfmt::skip]
static SAID: [(DeviceState, usize, bool); 18] = [
    (DeviceState::DownloadIdle { written: 4, number: 1 }, 0, true),
    (DeviceState::DownloadIdle { written: 5, number: 1 }, 0, false),
    (DeviceState::DownloadIdle { written: 3, number: 1 }, 0, false),
    (DeviceState::DownloadSyncWritten { written: 4, number: 1 }, 0, true),
    (DeviceState::DownloadSyncWritten { written: 0, number: 1 }, 0, false),
    (DeviceState::DownloadSync { written: 4, number: 1 }, 60, true),
    (DeviceState::DownloadSync { written: 4, number: 1 }, 61, false),
    (DeviceState::DownloadSync { written: 4, number: 1 }, 0, false),
    (DeviceState::DownloadSync { written: 0, number: 1 }, 64, true),
    (DeviceState::DownloadBusy { written: 4, number: 1, passed: 9 }, 1, true),
    (DeviceState::DownloadBusy { written: 2, number: 1, passed: 9 }, 1, false),
    (DeviceState::ManifestSync { written: 4 }, 0, true),
    (DeviceState::ManifestSync { written: 64 }, 0, false),
    (DeviceState::Manifest { written: 4, passed: 0 }, 0, true),
    (DeviceState::Manifest { written: 0, passed: 0 }, 0, false),
    (DeviceState::DfuIdle, 64, true),
    (DeviceState::UploadIdle { place: 70, number: 9 }, 0, true),
    (DeviceState::Error { code: Code::Ok }, 0, true),
];

#[test]
fn a_mode_that_does_not_go_with_the_puts_is_told() {
    let seen = PutSoFar {
        room: 64,
        begun: true,
        end: 4,
    };
    for (number, (mode, len, wanted)) in SAID.iter().enumerate() {
        assert_eq!(is_filled(seen, *mode, *len), *wanted, "row {number}");
    }
}

#[test]
fn nothing_is_written_where_nothing_is_begun() {
    let seen = PutSoFar {
        room: 64,
        begun: false,
        end: 0,
    };
    assert!(!is_filled(seen, SAID[0].0, 0));
    assert!(is_filled(seen, SAID[8].0, 64));
}
