// Of crates/dfuse_host/src/closing.rt, whose contracts are taken away.

//! Leaving: the leave request, a DNLOAD without bytes, makes the device start its application.

use crate::dfuse::session::command::cleared;
use crate::dfuse::session::heard::Heard;
use crate::dfuse::session::phase::Phase;
use crate::dfuse::session::place::Place;
use crate::dfuse::session::report::{Leaving, Report};
use crate::dfuse::session::settling::stand;
use crate::dfuse::session::step::Step;
use crate::dfuse::session::work::Work;
use crate::wire::{Code, State};

/// Returns the phase after the leave request, with the result `heard`.
pub(crate) fn on_close(work: Work, place: Place, heard: &Heard) -> Phase {
    match heard {
        Heard::Acked => stand(work, place, Step::ClosePoll),
        _ => stand(work, place, Step::CloseProbe),
    }
}

/// Returns the phase after an unacknowledged leave request, if GETSTATE then returned `state`.
fn close_probed(work: Work, place: Place, state: State) -> Phase {
    match state {
        State::DfuIdle | State::DownloadIdle => stand(work, place, Step::Close),
        State::Error => cleared(work),
        _ => stand(work, place, Step::ClosePoll),
    }
}

/// Returns the phase after GETSTATE, with which the session finds out if the leave request arrived.
pub(crate) fn on_close_probe(work: Work, place: Place, heard: &Heard) -> Phase {
    match heard {
        Heard::StateIs(state) => close_probed(work, place, *state),
        Heard::Stalled => stand(work, place, Step::ClosePoll),
        _ => stand(work, place, Step::CloseProbe),
    }
}

/// Returns the phase after a leave request, if GETSTATUS then returned `code` and `state`.
fn close_polled(work: Work, place: Place, code: Code, state: State) -> Phase {
    match (code, state) {
        (_, State::DfuIdle | State::DownloadIdle) => stand(work, place, Step::Close),
        (_, State::Error) => cleared(work),
        (Code::Ok, State::Manifest | State::ManifestWaitReset) => {
            Phase::Over(Report::Verified(Leaving::Left))
        }
        _ => stand(work, place, Step::ClosePoll),
    }
}

/// Returns the phase after GETSTATUS, with which the session finds out if the device leaves.
pub(crate) fn on_close_poll(work: Work, place: Place, heard: &Heard) -> Phase {
    match heard {
        Heard::Told(status) => close_polled(work, place, status.code(), status.state()),
        _ => stand(work, place, Step::ClosePoll),
    }
}
