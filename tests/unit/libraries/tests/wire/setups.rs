//! Setups that were worked out by hand from the standard's table of requests.

use fustrelan::wire::{Request, Setup, asked_again, reread_setup};

/// Setups, and the requests that they are.
static NAMED: [([u8; 8], Request); 7] = [
    (
        [0x21, 0x01, 0x00, 0x00, 0x00, 0x00, 0x04, 0x00],
        Request::Dnload {
            block: 0,
            length: 4,
        },
    ),
    (
        [0xa1, 0x03, 0x00, 0x00, 0x00, 0x00, 0x06, 0x00],
        Request::GetStatus { length: 6 },
    ),
    (
        [0x21, 0x00, 0xff, 0x00, 0x00, 0x00, 0x00, 0x00],
        Request::Detach { timeout: 255 },
    ),
    (
        [0xa1, 0x02, 0xfe, 0xff, 0x00, 0x00, 0x08, 0x00],
        Request::Upload {
            block: 65_534,
            length: 8,
        },
    ),
    (
        [0x21, 0x04, 0x00, 0x00, 0x00, 0x00, 0x00, 0x00],
        Request::ClrStatus,
    ),
    (
        [0xa1, 0x05, 0x00, 0x00, 0x00, 0x00, 0x01, 0x00],
        Request::GetState { length: 1 },
    ),
    (
        [0x21, 0x06, 0x00, 0x00, 0x00, 0x00, 0x00, 0x00],
        Request::Abort,
    ),
];

#[test]
fn setups_are_read_and_written() {
    for (bytes, request) in &NAMED {
        let setup = Setup::decode(bytes);
        assert_eq!(setup.request(), *request);
        assert_eq!(request.setup(), Some(setup));
        assert_eq!(setup.encode(), *bytes);
        assert_eq!(reread_setup(&setup), setup);
        assert_eq!(asked_again(request), Some(*request));
    }
}

/// The names of the requests of `NAMED`, in its order.
static NAMES: [&str; 7] = [
    "DNLOAD",
    "GETSTATUS",
    "DETACH",
    "UPLOAD",
    "CLRSTATUS",
    "GETSTATE",
    "ABORT",
];

#[test]
fn requests_have_the_names_of_the_standard() {
    for ((_, request), name) in NAMED.iter().zip(NAMES.iter()) {
        assert_eq!(request.name(), *name);
    }
    assert_eq!(Request::OtherClass.name(), "other-class");
    assert_eq!(Request::NotDfu.name(), "not-dfu");
}

/// Setups outside the table, or with a value that has no meaning there.
static OTHERS: [([u8; 8], Request); 11] = [
    ([0x80, 0x03, 0, 0, 0, 0, 6, 0], Request::NotDfu),
    ([0xa1, 0x03, 0, 0, 1, 0, 6, 0], Request::NotDfu),
    ([0x21, 0x07, 0, 0, 0, 1, 0, 0], Request::NotDfu),
    ([0x21, 0x07, 0, 0, 0, 0, 0, 0], Request::OtherClass),
    ([0x21, 0x03, 0, 0, 0, 0, 6, 0], Request::OtherClass),
    ([0xa1, 0x00, 0, 0, 0, 0, 0, 0], Request::OtherClass),
    ([0x21, 0x00, 0, 0, 0, 0, 1, 0], Request::OtherClass),
    ([0x21, 0x04, 0, 0, 0, 0, 0, 1], Request::OtherClass),
    ([0x21, 0x06, 0, 0, 0, 0, 1, 0], Request::OtherClass),
    // a value that has no meaning is ignored
    (
        [0xa1, 0x03, 9, 9, 0, 0, 6, 0],
        Request::GetStatus { length: 6 },
    ),
    ([0x21, 0x06, 9, 9, 0, 0, 0, 0], Request::Abort),
];

#[test]
fn setups_outside_the_table_ask_for_nothing_named() {
    for (bytes, request) in &OTHERS {
        assert_eq!(Setup::decode(bytes).request(), *request, "at {bytes:?}");
    }
    assert_eq!(Request::OtherClass.setup(), None);
    assert_eq!(Request::NotDfu.setup(), None);
}
