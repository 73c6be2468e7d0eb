//! The sessions that tests/bench/rust/run measures, beside those in C: device.c and host.c do the same.
#![no_std]

#[cfg(feature = "device")]
mod device;
#[cfg(feature = "host")]
mod host;

const TRANSFER: usize = 1024;
const IMAGE: usize = 65_536;
const SUFFIX: usize = 16;

/// What a session is given: session.h has the same.
#[repr(C)]
pub struct Room {
    pub flash: [u8; 2 * (IMAGE + 4096)],
    pub block: [u8; TRANSFER],
    pub held: [u8; 1],
    pub out: [u8; TRANSFER],
    /// The image, and its suffix.
    pub file: [u8; IMAGE + SUFFIX],
    /// Of the device that a host talks to.
    pub descriptor: [u8; 9],
}

unsafe extern "C" {
    safe fn stopped() -> !;
}

#[panic_handler]
fn on_panic(_: &core::panic::PanicInfo<'_>) -> ! {
    stopped()
}
