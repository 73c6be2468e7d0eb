//! The texts that the faults are displayed as.

use fustrelan::slots::{Failed, FormatFault, NoMemory, OpenFault, PutFault};
use unit::are_displayed;

static FORMAT_FAULTS: [(FormatFault, &str); 3] = [
    (
        FormatFault::WrongSize,
        "the medium has no length that two slots can have",
    ),
    (
        FormatFault::TooLarge,
        "the image is longer than a slot's data",
    ),
    (FormatFault::Failed, "a write to the medium failed"),
];

#[rustfmt::skip]
static OPEN_FAULTS: [(OpenFault, &str); 4] = [
    (OpenFault::WrongSize, "the medium has no length that two slots can have"),
    (OpenFault::NoImage, "no slot of the medium has an image"),
    (OpenFault::TwoImages, "two slots of the medium have an image, and neither follows the other"),
    (OpenFault::BadHeader, "the header of the active slot is not well formed"),
];

static PUT_FAULTS: [(PutFault, &str); 4] = [
    (PutFault::TooLarge, "the image is longer than a slot's data"),
    (PutFault::Failed, "a write to the medium failed"),
    (PutFault::NotVerified, "a write to the medium is not there"),
    (PutFault::NotBegun, "the spare slot was not begun"),
];

#[test]
fn faults_of_format_and_open_say_what_is_wrong() {
    are_displayed(&FORMAT_FAULTS);
    are_displayed(&OPEN_FAULTS);
}

#[test]
fn faults_of_puts_and_media_say_what_is_wrong() {
    are_displayed(&PUT_FAULTS);
    are_displayed(&[(Failed, "a write to the medium failed")]);
    are_displayed(&[(NoMemory, "out of memory")]);
}
