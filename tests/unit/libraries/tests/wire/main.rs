//! Bytes and values that were worked out by hand from the standard's tables, and the texts of faults.

mod descriptors;
mod numbers;
mod setups;
mod statuses;

use fustrelan::wire::WireFault;
use unit::are_displayed;

/// What each fault is printed as.
static TEXTS: [(WireFault, &str); 7] = [
    (WireFault::Short, "too few bytes"),
    (WireFault::Long, "too many bytes"),
    (WireFault::WrongLength, "the length byte is wrong"),
    (WireFault::WrongType, "the type byte is wrong"),
    (WireFault::UnknownState, "no such state"),
    (WireFault::UnknownCode, "no such status code"),
    (WireFault::PollTooLong, "the poll time does not fit 24 bits"),
];

#[test]
fn wire_faults_say_what_is_wrong() {
    are_displayed(&TEXTS);
}
