//! Says by log 0.4 which states a device comes to, and how a session of a host ended. It says nothing else, and does nothing else.
//!
//! ```
//! use fustrelan::wire::{Code, State};
//! use fustrelan_log::States;
//!
//! let mut states = States::new();
//! states.see(State::DfuIdle, Code::Ok);      // info: dfuIDLE
//! states.see(State::DfuIdle, Code::Ok);      // nothing: it is in it still
//! states.see(State::Error, Code::Write);     // warning: dfuERROR, errWRITE
//! ```
//!
//! In a bootloader: `states.see(device.state(), device.code())` after each call that may change the state.
#![no_std]
#![forbid(unsafe_code)]

use fustrelan::wire::{Code, State};

/// What each line is said of: the target of log.
pub const TARGET: &str = "dfu";

/// The last state that was said.
#[derive(Clone, Copy, Debug, Default)]
pub struct States {
    last: Option<(State, Code)>,
}

impl States {
    /// Nothing was said.
    pub const fn new() -> States {
        States { last: None }
    }

    /// Says this state by its name in the standard (USB DFU 1.1, section 6.1.2), if it is another than the last one: as information, and
    /// dfuERROR with its code as a warning.
    pub fn see(&mut self, state: State, code: Code) {
        if self.last.replace((state, code)) == Some((state, code)) {
            return;
        }
        match state {
            State::Error => log::warn!(target: TARGET, "{}, {}", state.name(), code.name()),
            _ => log::info!(target: TARGET, "{}", state.name()),
        }
    }
}

/// Says how a session ended: as information if the image is in place or was given, else as a warning.
#[cfg(feature = "host")]
pub fn say(report: fustrelan::host::Report) {
    use fustrelan::host::Report;
    match report {
        Report::Installed | Report::Verified | Report::Uploaded => log::info!(target: TARGET, "{}", report.name()),
        Report::Refused(code) => log::warn!(target: TARGET, "{}, {}", report.name(), code.name()),
        _ => log::warn!(target: TARGET, "{}", report.name()),
    }
}
