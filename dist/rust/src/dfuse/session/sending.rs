// Of crates/dfuse_host/src/sending.rt, whose contracts are taken away.

//! Commands: a DNLOAD carries the command, and the next GETSTATUS starts it.

use crate::dfuse::session::clearing::TOO_EARLY_MS;
use crate::dfuse::session::command::cleared;
use crate::dfuse::session::heard::Heard;
use crate::dfuse::session::phase::Phase;
use crate::dfuse::session::place::Place;
use crate::dfuse::session::plan::Plan;
use crate::dfuse::session::report::Report;
use crate::dfuse::session::settling::stand;
use crate::dfuse::session::step::Step;
use crate::dfuse::session::work::Work;
use crate::wire::{Code, State, Status};

/// Returns the phase after the DNLOAD of a command, with the result `heard`.
pub(crate) fn on_send(work: Work, place: Place, heard: &Heard) -> Phase {
    match heard {
        Heard::Acked => stand(work, place, Step::Poll(0)),
        _ => stand(work, place, Step::Probe),
    }
}

/// Returns the phase after a wait of `ms` milliseconds for a command, with the result `heard`.
pub(crate) fn on_poll_wait(work: Work, place: Place, ms: u32, heard: &Heard) -> Phase {
    match heard {
        Heard::Waited => stand(work, place, Step::Poll(ms)),
        _ => stand(work, place, Step::PollWait(ms)),
    }
}

/// Returns the milliseconds to wait after a stalled GETSTATUS: the length of the last wait for the command, or 100 before any wait.
fn stalled_ms(last: u32) -> u32 {
    if last == 0 { TOO_EARLY_MS } else { last }
}

impl Plan<'_> {
    /// Returns the phase after the command of `work`, if the command may have been started and has an unknown outcome.
    fn on_unsure_command(&self, work: Work, place: Place) -> Phase {
        self.phase_when_unsure(work, self.command_of(work, place))
    }

    /// Returns the phase after an unacknowledged command, if GETSTATE then returned `state`.
    fn probed(&self, work: Work, place: Place, state: State) -> Phase {
        match state {
            State::DownloadSync => stand(work, place, Step::Poll(0)),
            State::DfuIdle | State::DownloadIdle => stand(work, place, Step::Send),
            State::Error => cleared(work),
            _ => self.on_unsure_command(work, place),
        }
    }

    /// Returns the phase after GETSTATE, with which the session finds out if a command arrived.
    pub(crate) fn on_probe(&self, work: Work, place: Place, heard: &Heard) -> Phase {
        match heard {
            Heard::StateIs(state) => self.probed(work, place, *state),
            Heard::Stalled => self.on_unsure_command(work, place),
            _ => stand(work, place, Step::Probe),
        }
    }

    /// Returns the phase after a command that ended in dfuERROR with `code`.
    fn refused(&self, work: Work, place: Place, code: Code) -> Phase {
        match code {
            Code::StalledPkt => self.on_unsure_command(work, place),
            Code::Vendor => Phase::Over(Report::ReadProtected),
            _ => Phase::Over(Report::Refused(code)),
        }
    }

    /// Returns the phase after the `status` that follows a command.
    fn on_polled_status(&self, work: Work, place: Place, status: &Status) -> Phase {
        match status.state() {
            State::DownloadSync | State::DownloadBusy => {
                stand(work, place, Step::PollWait(status.poll_ms()))
            }
            State::DownloadIdle => self.done(work, self.command_of(work, place)),
            State::Error => self.refused(work, place, status.code()),
            _ => self.on_unsure_command(work, place),
        }
    }

    /// Returns the phase after GETSTATUS, with which the session starts a command or checks if it is done.
    pub(crate) fn on_poll(&self, work: Work, place: Place, last: u32, heard: &Heard) -> Phase {
        match heard {
            Heard::Told(status) => self.on_polled_status(work, place, status),
            Heard::Stalled => stand(work, place, Step::PollWait(stalled_ms(last))),
            _ => stand(work, place, Step::Poll(last)),
        }
    }
}
