//! Devices that ask for their writes, over flash in memory that the tests write.

mod ahead;
mod board;
mod chip;
mod composed;
mod cuts;
mod faded;
mod formats;
mod renoted;
mod rows;
mod times;
mod trouble;
mod untrue;

use fustrelan::device::Config;
use fustrelan::wire::Functional;
use unit::Outcome;
use unit::requests::IDS;

/// DNLOAD of a block of so many bytes.
fn dnload(number: u8, len: u16) -> [u8; 8] {
    let [low, high] = len.to_le_bytes();
    [0x21, 1, number, 0, 0, 0, low, high]
}

/// A device with wTransferSize 1500 and these times.
fn config(busy_ms: u32, manifest_ms: u32) -> Outcome<Config> {
    let functional = Functional {
        can_download: true,
        can_upload: true,
        tolerant: true,
        will_detach: false,
        detach_ms: 255,
        transfer: 1500,
        version: 0x0110,
    };
    Ok(Config::new(IDS, functional, 1, busy_ms, manifest_ms)?)
}
