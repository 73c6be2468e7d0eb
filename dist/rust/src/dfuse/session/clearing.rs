// Of crates/dfuse_host/src/clearing.rt, whose contracts are taken away.

//! Clearing: the session drops or waits for a command of an earlier session, but never starts it.

use crate::dfuse::session::command::cleared;
use crate::dfuse::session::heard::Heard;
use crate::dfuse::session::phase::Phase;
use crate::dfuse::session::place::Place;
use crate::dfuse::session::plan::Plan;
use crate::dfuse::session::report::Report;
use crate::dfuse::session::settling::stand;
use crate::dfuse::session::step::Step;
use crate::dfuse::session::work::Work;
use crate::wire::{Code, State, Status};

/// Milliseconds to wait if the session requested the status too early.
pub(crate) const TOO_EARLY_MS: u32 = 100;

/// Returns the phase after dfuERROR with `code` while `work` reads bytes back. `errSTALLEDPKT` reports an unexpected request, not a fault
/// of the memory.
fn phase_after_comparing_fault(work: Work, code: Code) -> Phase {
    match code {
        Code::StalledPkt => stand(work, Place::Lost, Step::ClearStatus),
        _ => Phase::Over(Report::Refused(code)),
    }
}

/// Returns the phase after dfuERROR with `code` while the session clears the device.
fn phase_after_fault(work: Work, code: Code) -> Phase {
    match (work, code) {
        (Work::Erase { .. }, _) => stand(work, Place::Lost, Step::ClearStatus),
        (_, Code::Vendor) => Phase::Over(Report::ReadProtected),
        (Work::Compare { .. } | Work::CompareFront { .. }, _) => phase_after_comparing_fault(
            work, code,
        ),
        _ => stand(work, Place::Lost, Step::ClearStatus),
    }
}

/// Returns the phase after `status` while the session clears the device.
fn status_found(work: Work, status: &Status) -> Phase {
    match status.state() {
        State::AppIdle | State::AppDetach => Phase::Over(Report::NotDfu),
        State::DfuIdle => stand(work, Place::Lost, Step::AskState),
        State::DownloadIdle | State::UploadIdle => cleared(work),
        State::Error => phase_after_fault(work, status.code()),
        _ => stand(work, Place::Lost, Step::ClearWait(status.poll_ms())),
    }
}

/// Returns the phase after ABORT with the result `heard`, while the session clears the device.
pub(crate) fn on_abort(work: Work, heard: &Heard) -> Phase {
    match heard {
        Heard::Acked | Heard::Stalled => stand(work, Place::Lost, Step::AskState),
        _ => cleared(work),
    }
}

/// Returns the phase after GETSTATUS with the result `heard`, while the session clears the device.
pub(crate) fn on_ask_status(work: Work, heard: &Heard) -> Phase {
    match heard {
        Heard::Told(status) => status_found(work, status),
        Heard::Stalled => stand(work, Place::Lost, Step::ClearWait(TOO_EARLY_MS)),
        _ => stand(work, Place::Lost, Step::AskStatus),
    }
}

/// Returns the phase after a wait of `ms` milliseconds with the result `heard`, while the session clears the device.
pub(crate) fn on_clear_wait(work: Work, ms: u32, heard: &Heard) -> Phase {
    match heard {
        Heard::Waited => stand(work, Place::Lost, Step::AskState),
        _ => stand(work, Place::Lost, Step::ClearWait(ms)),
    }
}

impl Plan<'_> {
    /// Returns the phase after `state`, the answer to the GETSTATE that follows ABORT.
    fn state_found(&self, work: Work, state: State) -> Phase {
        match state {
            State::AppIdle | State::AppDetach => Phase::Over(Report::NotDfu),
            State::DfuIdle => self.settle(work, Place::Lost),
            State::DownloadSync | State::DownloadIdle | State::ManifestSync | State::UploadIdle =>
                cleared(work),
            State::DownloadBusy | State::Manifest | State::ManifestWaitReset | State::Error => {
                stand(work, Place::Lost, Step::AskStatus)
            }
        }
    }

    /// Returns the phase after GETSTATE with the result `heard`, while the session clears the device.
    pub(crate) fn on_ask_state(&self, work: Work, heard: &Heard) -> Phase {
        match heard {
            Heard::StateIs(state) => self.state_found(work, *state),
            Heard::Stalled => stand(work, Place::Lost, Step::AskStatus),
            _ => stand(work, Place::Lost, Step::AskState),
        }
    }
}
