// Of crates/dfuse_host/src/rows.rt, whose contracts are taken away.

//! The table of a session: the next phase for each step and result.

use crate::dfuse::session::clearing::{on_abort, on_ask_status, on_clear_wait};
use crate::dfuse::session::closing::{on_close, on_close_poll, on_close_probe};
use crate::dfuse::session::command::cleared;
use crate::dfuse::session::heard::Heard;
use crate::dfuse::session::phase::Phase;
use crate::dfuse::session::place::Place;
use crate::dfuse::session::plan::Plan;
use crate::dfuse::session::sending::{on_poll_wait, on_send};
use crate::dfuse::session::step::Step;
use crate::dfuse::session::work::Work;

impl Plan<'_> {
    /// Returns the phase after the result `heard` at `step` of `work`, where `place` is the session's knowledge of the address pointer.
    pub(crate) fn row(&self, work: Work, place: Place, step: Step, heard: &Heard) -> Phase {
        match step {
            Step::Abort => on_abort(work, heard),
            Step::AskState => self.on_ask_state(work, heard),
            Step::AskStatus => on_ask_status(work, heard),
            Step::ClearWait(ms) => on_clear_wait(work, ms, heard),
            Step::ClearStatus => cleared(work),
            Step::Send => on_send(work, place, heard),
            Step::Probe => self.on_probe(work, place, heard),
            Step::Poll(last) => self.on_poll(work, place, last, heard),
            Step::PollWait(ms) => on_poll_wait(work, place, ms, heard),
            Step::BeginReading | Step::EndReading => self.on_reading_abort(
                work, place, step, heard,
            ),
            Step::Read => self.on_read(work, place, heard),
            Step::Close => on_close(work, place, heard),
            Step::CloseProbe => on_close_probe(work, place, heard),
            Step::ClosePoll => on_close_poll(work, place, heard),
        }
    }
}
