// Of crates/dfu_host/src/row.rt, whose contracts are taken away.

//! The host's table, and its rows for the phases that bring a device to dfuIDLE, send the blocks and close the transfer (states: USB DFU
//! 1.1, appendix A). The other rows are in `fetching`, `comparing` and `ending`.

use crate::host::goal::Goal;
use crate::host::heard::Heard;
use crate::host::phase::Phase;
use crate::host::report::Report;
use crate::host::task::Task;
use crate::wire::{State, Status};

/// Returns the phase after a request whose answer has no bytes: `acked`, `stalled`, or `nothing` after any other result.
fn on_ack(heard: Heard, acked: Phase, stalled: Phase, nothing: Phase) -> Phase {
    match heard {
        Heard::Acked => acked,
        Heard::Stalled => stalled,
        _ => nothing,
    }
}

/// Returns the phase after a wait: `waited` once the wait is over, `again` after any other result.
fn on_waited(heard: Heard, waited: Phase, again: Phase) -> Phase {
    match heard {
        Heard::Waited => waited,
        _ => again,
    }
}

impl Task<'_> {
    /// Returns the phase that follows the result `heard` in `phase`.
    pub(crate) fn row(&self, phase: Phase, heard: Heard) -> Phase {
        match phase {
            Phase::Find | Phase::Trouble => self.on_status(phase, heard, Phase::FindAgain),
            Phase::FindAgain => self.on_status(phase, heard, Phase::ResetFind),
            Phase::Poll(_) | Phase::Manifest => self.on_status(phase, heard, Phase::Trouble),
            Phase::Detach => on_ack(heard, Phase::Enter, Phase::Find, Phase::Find),
            Phase::Enter => self.after_enter(heard),
            Phase::Clear | Phase::Quit => Phase::Find,
            Phase::WaitFind(_) => on_waited(heard, Phase::Find, phase),
            Phase::ResetFind => match heard {
                Heard::WasReset => Phase::Find,
                _ => phase,
            },
            Phase::Block(n) => on_ack(heard, Phase::Poll(n), Phase::Trouble, Phase::Ask(n)),
            Phase::Ask(number) => self.after_ask(number, heard),
            Phase::WaitPoll(number, _) => on_waited(heard, Phase::Poll(number), phase),
            Phase::Close => on_ack(heard, Phase::Manifest, Phase::Trouble, Phase::AskLast),
            Phase::AskLast => self.after_ask_last(heard),
            Phase::WaitManifest(_) => on_waited(heard, Phase::Manifest, phase),
            Phase::WaitLast(_) => on_waited(heard, Phase::Last(Report::Unconfirmed), phase),
            Phase::Fetch(number) => self.after_fetch(number, heard),
            Phase::Compare(number) => self.after_compare(number, heard),
            Phase::Last(report) => self.after_last(report, heard),
            Phase::LastUploaded => self.after_last_uploaded(heard),
            Phase::GiveUp => Phase::Over(Report::Aborted),
            Phase::Over(_) | Phase::OverUploaded => phase,
        }
    }

    /// Returns the phase after GETSTATUS: the one that the status selects, `stalled` after a stall, or `phase` again after any other
    /// result.
    fn on_status(&self, phase: Phase, heard: Heard, stalled: Phase) -> Phase {
        match heard {
            Heard::Told(status) => self.told(phase, status),
            Heard::Stalled => stalled,
            _ => phase,
        }
    }

    /// Returns the phase after `status`, which the host requested in `phase`.
    fn told(&self, phase: Phase, status: Status) -> Phase {
        match phase {
            Phase::Poll(number) => self.polled(number, status),
            Phase::Manifest => self.manifested(status),
            Phase::Trouble => self.troubled(status),
            _ => self.listed(status),
        }
    }

    /// Returns the first phase of the work, once the device is in dfuIDLE: that of block 0 or of part 0.
    fn start(&self) -> Phase {
        match &self.goal {
            Goal::Load(_) => Phase::Block(0),
            Goal::Fetch => Phase::Fetch(0),
            Goal::Verify(_) => Phase::Block(0),
            Goal::Compare(_) => Phase::Compare(0),
        }
    }

    /// Returns the phase that the device's state in `status` selects.
    pub(crate) fn listed(&self, status: Status) -> Phase {
        match status.state() {
            State::AppIdle => Phase::Detach,
            State::AppDetach => Phase::Enter,
            State::DfuIdle => self.start(),
            State::DownloadSync | State::DownloadBusy | State::ManifestSync | State::Manifest =>
                Phase::WaitFind(status.poll_ms()),
            State::DownloadIdle | State::UploadIdle => Phase::Quit,
            State::ManifestWaitReset => Phase::ResetFind,
            State::Error => Phase::Clear,
        }
    }

    /// Returns the phase after Enter, in which the host waits if the device detaches by itself, and else resets the bus.
    pub(crate) fn after_enter(&self, heard: Heard) -> Phase {
        match heard {
            Heard::Waited if self.will_detach => Phase::Find,
            Heard::WasReset if !self.will_detach => Phase::Find,
            _ => Phase::Enter,
        }
    }

    /// Returns the phase after GETSTATE, which the host sent because the answer to block `number` was lost. The state shows if the block
    /// arrived.
    pub(crate) fn after_ask(&self, number: usize, heard: Heard) -> Phase {
        match heard {
            Heard::StateIs(State::DownloadSync) => Phase::Poll(number),
            Heard::StateIs(State::DfuIdle) if number == 0 => Phase::Block(number),
            Heard::StateIs(State::DownloadIdle) if number > 0 => Phase::Block(number),
            Heard::StateIs(_) | Heard::Stalled => Phase::Trouble,
            _ => Phase::Ask(number),
        }
    }

    /// Returns the phase after `status`, which the host requested after block `number`.
    pub(crate) fn polled(&self, number: usize, status: Status) -> Phase {
        match status.state() {
            State::DownloadSync | State::DownloadBusy => {
                Phase::WaitPoll(number, status.poll_ms())
            }
            State::DownloadIdle if self.is_last(number) => Phase::Close,
            State::DownloadIdle => Phase::Block(number + 1),
            _ => self.troubled(status),
        }
    }

    /// Returns the phase after GETSTATE, which the host sent because the answer to the close was lost. The state shows if the close
    /// arrived.
    pub(crate) fn after_ask_last(&self, heard: Heard) -> Phase {
        match heard {
            Heard::StateIs(State::ManifestSync) => Phase::Manifest,
            Heard::StateIs(State::DownloadIdle) => Phase::Close,
            Heard::StateIs(_) | Heard::Stalled => Phase::Trouble,
            _ => Phase::AskLast,
        }
    }
}
