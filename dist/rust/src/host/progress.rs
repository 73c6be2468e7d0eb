// Of crates/dfu_host/src/progress.rt, whose contracts are taken away.

//! Progress of a session: its phase, the actions and the restarts that are left.

use crate::host::heard::Heard;
use crate::host::limits::Limits;
use crate::host::phase::Phase;
use crate::host::report::Report;
use crate::host::task::Task;

/// Progress of a session.
#[derive(Clone, Copy, Debug, PartialEq, Eq)]
pub(crate) struct Progress {
    pub(crate) phase: Phase,
    /// Number of actions that are left.
    pub(crate) actions: u32,
    /// Number of further restarts of the device that the session tolerates.
    pub(crate) restarts: u16,
}

/// Returns the progress of a new session, with at least one action.
pub(crate) fn beginning(limits: Limits) -> Progress {
    Progress {
        phase: Phase::Find,
        actions: limits.actions.max(1),
        restarts: limits.restarts,
    }
}

impl Progress {
    /// Returns the progress after the result `heard`, and changes the task with it. The caller has already kept or refused a part in the
    /// result.
    pub(crate) fn after(self, task: &mut Task<'_>, heard: Heard) -> Progress {
        if let Phase::Over(_) | Phase::OverUploaded = self.phase {
            return self;
        }
        match heard {
            Heard::Restarted => self.restarted(),
            Heard::Left => self.left(task),
            _ => self.by_row(task, heard),
        }
    }

    /// Returns the progress after a result that is handled by the table's row.
    fn by_row(self, task: &mut Task<'_>, heard: Heard) -> Progress {
        let done = is_last_done(&self.phase, &heard);
        let next = task.row(self.phase, heard);
        task.go_on(done);
        self.spent(next, self.restarts)
    }

    /// Returns the progress after the device left by itself. After the close, this counts as the last reset, which confirms nothing; in
    /// every other phase it counts as a restart.
    fn left(self, task: &mut Task<'_>) -> Progress {
        if !task.is_behind_close(self.phase) {
            return self.restarted();
        }
        let next = task.after_last(Report::Unconfirmed, Heard::WasReset);
        task.go_on(true);
        self.spent(next, self.restarts)
    }

    /// Returns the progress after a restart of the device.
    fn restarted(self) -> Progress {
        if let Phase::GiveUp = self.phase {
            return self.spent(Phase::Over(Report::Aborted), self.restarts);
        }
        if self.restarts == 0 {
            self.spent(Phase::Over(Report::RestartsSpent), 0)
        } else {
            self.spent(Phase::Find, self.restarts - 1)
        }
    }

    /// Returns the progress after an action that leads to `next`.
    fn spent(self, next: Phase, restarts: u16) -> Progress {
        let actions = self.actions.saturating_sub(1);
        Progress {
            phase: budgeted(actions, next),
            actions,
            restarts,
        }
    }
}

/// Returns true if `phase` was the last reset, and the bus was reset.
fn is_last_done(phase: &Phase, heard: &Heard) -> bool {
    match (phase, heard) {
        (Phase::Last(_), Heard::WasReset) => true,
        _ => false,
    }
}

/// Returns the phase after the budget check. A session without actions left gives up, unless it is over.
fn budgeted(left: u32, phase: Phase) -> Phase {
    match phase {
        Phase::Over(_) | Phase::OverUploaded => phase,
        _ if left == 0 => Phase::Over(Report::GaveUp),
        _ => phase,
    }
}
