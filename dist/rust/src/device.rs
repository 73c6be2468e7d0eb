// Of crates/dfu_device/src/lib.rt, whose contracts are taken away.

//! The device's side of USB Device Firmware Upgrade (USB DFU 1.1). The state machine answers every setup packet with every body, allocates
//! no memory, and never fails. Each of its steps is a row of the device table, `crates/dfu_device/specs/Table.antt`.

mod answer;
mod candidate;
mod config;
mod decision;
mod device;
mod device_core;
mod device_state;
mod effects;
mod filled;
mod objection;
mod plans;
mod table;
mod time_table;

pub use answer::Answer;
pub use candidate::Candidate;
pub use config::{Config, ConfigFault, Pace, Profile};
pub use decision::{Decision, Reply};
pub use device::Device;
pub use device_state::{DeviceState, status_in};
pub use filled::{PutSoFar, is_filled};
pub use objection::{Objection, is_close};
pub use table::{asked_row, decide};
pub use time_table::{decide_time, poll_ms};
