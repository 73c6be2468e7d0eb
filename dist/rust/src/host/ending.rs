// Of crates/dfu_host/src/ending.rt, whose contracts are taken away.

//! The rows of the phases after the last block, and of the phase after a stall.

use crate::host::goal::Goal;
use crate::host::heard::Heard;
use crate::host::phase::Phase;
use crate::host::report::Report;
use crate::host::task::Task;
use crate::wire::{Code, State, Status};

impl Task<'_> {
    /// Returns the phase after `status`, which the host requested after a stall or an unexpected state. dfuERROR with a code other than OK
    /// and errSTALLEDPKT ends the session; every other status leads to the phase for its state.
    pub(crate) fn troubled(&self, status: Status) -> Phase {
        match status.state() {
            State::Error => match status.code() {
                Code::Ok | Code::StalledPkt => self.listed(status),
                code => Phase::Over(Report::Refused(code)),
            },
            _ => self.listed(status),
        }
    }

    /// Returns true if `phase` follows the close of a download.
    pub(crate) fn is_behind_close(&self, phase: Phase) -> bool {
        match phase {
            Phase::Manifest | Phase::WaitManifest(_) | Phase::WaitLast(_) => true,
            Phase::Last(_) => self.goal.installs(),
            _ => false,
        }
    }

    /// Returns the phase after the last reset: the end with `report`, or Find if the session must still compare the image. After any result
    /// other than a reset, the host resets the bus again.
    pub(crate) fn after_last(&self, report: Report, heard: Heard) -> Phase {
        match heard {
            Heard::WasReset => match &self.goal {
                Goal::Verify(_) => Phase::Find,
                _ => Phase::Over(report),
            },
            _ => Phase::Last(report),
        }
    }

    /// Returns the phase after `status`, which the host requested after the close.
    pub(crate) fn manifested(&self, status: Status) -> Phase {
        if self.tolerant {
            self.confirmed(status)
        } else {
            self.unconfirmed(status)
        }
    }

    /// Returns the phase after `status` of a tolerant device. Only dfuIDLE with OK confirms the new image.
    fn confirmed(&self, status: Status) -> Phase {
        match (status.state(), status.code()) {
            (State::ManifestSync | State::Manifest, _) => Phase::WaitManifest(status.poll_ms()),
            (State::DfuIdle, Code::Ok) => Phase::Last(Report::Installed),
            _ => self.troubled(status),
        }
    }

    /// Returns the phase after `status` of a device that isn't tolerant, which never confirms the new image.
    fn unconfirmed(&self, status: Status) -> Phase {
        match status.state() {
            State::ManifestSync | State::Manifest => Phase::WaitLast(status.poll_ms()),
            State::DfuIdle | State::ManifestWaitReset => Phase::Last(Report::Unconfirmed),
            _ => self.troubled(status),
        }
    }
}
