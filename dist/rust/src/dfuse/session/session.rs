// Of crates/dfuse_host/src/session.rt, whose contracts are taken away.

//! The session of a host with a DfuSe device.

use crate::dfuse::session::action::Action;
use crate::dfuse::session::command::cleared;
use crate::dfuse::session::fault::PlanFault;
use crate::dfuse::session::heard::Heard;
use crate::dfuse::session::image::image_start;
use crate::dfuse::session::limits::Limits;
use crate::dfuse::session::phase::{Phase, Standing};
use crate::dfuse::session::plan::Plan;
use crate::dfuse::session::report::{Leaving, Report};
use crate::dfuse::session::seen::Seen;
use crate::dfuse::session::step::Step;
use crate::dfuse::session::work::Work;

/// A session of a host with a DfuSe device. It is plain data, which a caller may store between two calls.
#[derive(Clone, Copy, Debug, PartialEq, Eq)]
pub struct Session<'f> {
    /// Image to write, and the memory that receives it.
    pub plan: Plan<'f>,
    /// Standing of the session, or its report when it is over.
    pub phase: Phase,
    /// Number of actions left.
    pub actions: u32,
    /// Number of restarts of the device that are still allowed.
    pub restarts: u16,
}

/// Returns the `Leaving` of a session that ends at `step`: `Unknown` if it has reached the leave request (a DNLOAD without bytes), and
/// `Stayed` otherwise.
fn left_at(step: Step) -> Leaving {
    match step {
        Step::Close | Step::CloseProbe | Step::ClosePoll => Leaving::Unknown,
        _ => Leaving::Stayed,
    }
}

/// Returns the phase of a session without actions left: over as `Verified` if its work is `Leave`, and as `GaveUp` otherwise.
fn phase_without_actions(work: Work, step: Step) -> Phase {
    match work {
        Work::Leave => Phase::Over(Report::Verified(left_at(step))),
        _ => Phase::Over(Report::GaveUp),
    }
}

/// Returns `phase` if `left` actions are more than 0 or the session is over, and the end of the session otherwise.
fn budget_phase(left: u32, phase: Phase) -> Phase {
    match phase {
        Phase::Over(_) => phase,
        Phase::On(at) if left == 0 => phase_without_actions(at.work, at.step),
        Phase::On(_) => phase,
    }
}

impl<'f> Session<'f> {
    /// Returns the session after an action that leads to `phase`, with `restarts` restarts left.
    fn spend_action(self, phase: Phase, restarts: u16) -> Session<'f> {
        let actions = self.actions.saturating_sub(1);
        Session {
            plan: self.plan,
            phase: budget_phase(actions, phase),
            actions,
            restarts,
        }
    }

    /// Returns the phase in which the session resumes after the device restarted at the standing `at`.
    fn resumed(self, at: Standing) -> Phase {
        match at.step {
            Step::Poll(_) | Step::PollWait(_) => {
                self.plan
                    .phase_when_unsure(at.work, self.plan.command_of(at.work, at.place))
            }
            _ => cleared(at.work),
        }
    }

    /// Returns the session after the device restarted at the standing `at`. It is over as `RestartsSpent` if no restart is left.
    fn take_restart(self, at: Standing) -> Session<'f> {
        if self.restarts == 0 {
            return self.spend_action(Phase::Over(Report::RestartsSpent), 0);
        }
        let phase = self.resumed(at);
        self.spend_action(phase, self.restarts - 1)
    }

    /// Returns the session after the device restarted at the standing `at`, whose work is `Leave`. If the session has reached the leave
    /// request, it is over as `Verified`.
    fn restarted_leaving(self, at: Standing) -> Session<'f> {
        match at.step {
            Step::Close | Step::CloseProbe | Step::ClosePoll => {
                self.spend_action(
                    Phase::Over(Report::Verified(Leaving::Unknown)),
                    self.restarts,
                )
            }
            _ => self.take_restart(at),
        }
    }

    /// Returns the session after the device restarted at the standing `at`.
    fn restarted(self, at: Standing) -> Session<'f> {
        match at.work {
            Work::Leave => self.restarted_leaving(at),
            _ => self.take_restart(at),
        }
    }

    /// Returns the session after the result `heard` at the standing `at`.
    fn after(self, at: Standing, heard: Heard) -> Session<'f> {
        match heard {
            Heard::Restarted => self.restarted(at),
            _ => self.spend_action(
                self.plan.row(at.work, at.place, at.step, &heard),
                self.restarts,
            ),
        }
    }

    /// Begins a session that writes an image and reads it back. The session writes the front last, so that a device doesn't start an image
    /// that is only partly written.
    ///
    /// # Errors
    ///
    /// The first fault of the plan, in the order of [`PlanFault`].
    pub fn begin(plan: Plan<'f>, limits: Limits) -> Result<Session<'f>, PlanFault> {
        match plan.check() {
            Ok(()) => Ok(Session {
                plan,
                phase: cleared(Work::Erase {
                    at: image_start(plan.image),
                }),
                actions: limits.actions.max(1),
                restarts: limits.restarts,
            }),
            Err(fault) => Err(fault),
        }
    }

    /// Returns the next action. The call changes nothing, so it may be repeated.
    pub fn next(&self) -> Action<'f> {
        self.plan.action(self.phase)
    }

    /// Gives the session the result of its action. After `actions` calls, or after one call if the limits allow none, the session is over,
    /// no matter which results it got. A session that is over never changes.
    pub fn take(&mut self, seen: Seen<'_>) {
        if let Phase::On(at) = self.phase {
            let heard = self.plan.hear(at.work, at.step, seen);
            *self = self.after(at, heard);
        }
    }
}
