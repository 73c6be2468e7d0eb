//! Says by defmt 0.3 which states a device comes to, and how a session of a host ended. It says nothing else, and does nothing else.
//!
//! defmt leaves out at compile time what `DEFMT_LOG` does not name: build with `DEFMT_LOG=info`, or `DEFMT_LOG=fustrelan_defmt=info`. In a
//! bootloader, which has a logger of defmt:
//!
//! ```no_run
//! # #[defmt::global_logger]
//! # struct Nowhere;
//! # unsafe impl defmt::Logger for Nowhere {
//! #     fn acquire() {}
//! #     unsafe fn flush() {}
//! #     unsafe fn release() {}
//! #     unsafe fn write(_: &[u8]) {}
//! # }
//! # defmt::timestamp!("");
//! use fustrelan::wire::{Code, State};
//! use fustrelan_defmt::States;
//!
//! let mut states = States::new();
//! states.see(State::DfuIdle, Code::Ok);      // info: dfuIDLE
//! states.see(State::DfuIdle, Code::Ok);      // nothing: it is in it still
//! states.see(State::Error, Code::Write);     // warning: dfuERROR, errWRITE
//! ```
//!
//! A state, a code or a report in a line of your own: `defmt::info!("{}", Named(state))`.
#![no_std]

use fustrelan::wire::{Code, State};

/// What has a name, as a line shows it.
#[derive(Clone, Copy, Debug, PartialEq, Eq)]
pub struct Named<T>(pub T);

impl defmt::Format for Named<State> {
    fn format(&self, line: defmt::Formatter<'_>) {
        defmt::write!(line, "{=str}", self.0.name());
    }
}

impl defmt::Format for Named<Code> {
    fn format(&self, line: defmt::Formatter<'_>) {
        defmt::write!(line, "{=str}", self.0.name());
    }
}

#[cfg(feature = "host")]
impl defmt::Format for Named<fustrelan::host::Report> {
    fn format(&self, line: defmt::Formatter<'_>) {
        match self.0 {
            fustrelan::host::Report::Refused(code) => defmt::write!(line, "{=str}, {=str}", self.0.name(), code.name()),
            report => defmt::write!(line, "{=str}", report.name()),
        }
    }
}

/// The last state that was said.
#[derive(Clone, Copy, Debug, Default)]
pub struct States {
    last: Option<(State, Code)>,
}

impl States {
    /// Nothing was said.
    pub const fn new() -> States {
        States { last: None }
    }

    /// Says this state by its name in the standard (USB DFU 1.1, section 6.1.2), if it is another than the last one: as information, and
    /// dfuERROR with its code as a warning.
    pub fn see(&mut self, state: State, code: Code) {
        if self.last.replace((state, code)) == Some((state, code)) {
            return;
        }
        match state {
            State::Error => defmt::warn!("{}, {}", Named(state), Named(code)),
            _ => defmt::info!("{}", Named(state)),
        }
    }
}

/// Says how a session ended: as information if the image is in place or was given, else as a warning.
#[cfg(feature = "host")]
pub fn say(report: fustrelan::host::Report) {
    use fustrelan::host::Report;
    match report {
        Report::Installed | Report::Verified | Report::Uploaded => defmt::info!("{}", Named(report)),
        _ => defmt::warn!("{}", Named(report)),
    }
}
