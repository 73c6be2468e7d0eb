// Of crates/dfu_wire/src/round_trips.rt, whose contracts are taken away.

//! Round trips. Each function encodes its argument, or converts it to a setup, and decodes the result. The decoded value equals the
//! argument. A request without a setup gives None.

use crate::wire::{Functional, Request, Setup, Status, WireFault};

/// Encodes `functional` and decodes the bytes. The result equals `functional`.
pub fn reread_functional(functional: &Functional) -> Result<Functional, WireFault> {
    Functional::decode(&functional.encode())
}

/// Encodes `setup` and decodes the bytes. The result equals `setup`.
pub fn reread_setup(setup: &Setup) -> Setup {
    Setup::decode(&setup.encode())
}

/// Encodes `status` and decodes the bytes. The result equals `status`.
pub fn reread_status(status: &Status) -> Result<Status, WireFault> {
    Status::decode(&status.encode())
}

/// Converts `request` to a setup and back. The result equals `request`, or is None if `request` has no setup.
pub fn asked_again(request: &Request) -> Option<Request> {
    match request.setup() {
        Some(setup) => Some(setup.request()),
        None => None,
    }
}
