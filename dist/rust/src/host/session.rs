// Of crates/dfu_host/src/session.rt, whose contracts are taken away.

//! A session of a host that takes no memory.

use crate::host::action::Action;
use crate::host::fault::HostFault;
use crate::host::goal::Goal;
use crate::host::limits::Limits;
use crate::host::part::UploadPart;
use crate::host::parts::Parts;
use crate::host::phase::Phase;
use crate::host::progress::{Progress, beginning};
use crate::host::refusing::{gives_uploads, goal_to_install};
use crate::host::seen::Seen;
use crate::host::task::Task;
use crate::suffix::File;
use crate::wire::{Functional, Ids};

/// A session of a host, for a caller that keeps the fetched bytes itself. A session takes no memory.
#[derive(Debug, PartialEq, Eq)]
pub struct Session<'f> {
    task: Task<'f>,
    progress: Progress,
}

impl<'f> Session<'f> {
    /// Returns a new session that installs a file, as `Host::download` does, with the same faults.
    pub fn download(
        file: &File<'f>,
        functional: &Functional,
        device: Ids,
        limits: Limits,
    ) -> Result<Session<'f>, HostFault> {
        let goal = goal_to_install(file, functional, device, false)?;
        Ok(Session::begin(goal, functional, limits))
    }

    /// Returns a new session that installs a file and then compares the image in the device with it, as `Host::download_verified`
    /// does, with the same faults.
    pub fn download_verified(
        file: &File<'f>,
        functional: &Functional,
        device: Ids,
        limits: Limits,
    ) -> Result<Session<'f>, HostFault> {
        let goal = goal_to_install(file, functional, device, true)?;
        Ok(Session::begin(goal, functional, limits))
    }

    /// Returns a new session that fetches the active image, as `Host::upload` does, with the same faults.
    pub fn upload(functional: &Functional, limits: Limits) -> Result<Session<'f>, HostFault> {
        gives_uploads(functional)?;
        Ok(Session::begin(Goal::Fetch, functional, limits))
    }

    /// Returns a new session with `goal`, the device descriptor `functional` and `limits`.
    pub(crate) fn begin(goal: Goal<'f>, functional: &Functional, limits: Limits) -> Session<'f> {
        Session {
            task: Task {
                goal,
                transfer: functional.transfer,
                tolerant: functional.tolerant,
                will_detach: functional.will_detach,
                detach_ms: functional.detach_ms,
            },
            progress: beginning(limits),
        }
    }

    /// Returns the session's parts, from which [`Session::from_parts`] creates the session again.
    pub fn parts(&self) -> Parts<'f> {
        Parts {
            goal: self.task.goal,
            transfer: self.task.transfer,
            tolerant: self.task.tolerant,
            will_detach: self.task.will_detach,
            detach_ms: self.task.detach_ms,
            phase: self.progress.phase,
            actions: self.progress.actions,
            restarts: self.progress.restarts,
        }
    }

    /// Returns the session of `parts`. None exactly if no session has these parts: the goal has an empty payload, the transfer size is 0,
    /// or the phase needs something that doesn't exist, such as a block after the last one.
    pub fn from_parts(parts: Parts<'f>) -> Option<Session<'f>> {
        if !parts.is_session() {
            return None;
        }
        Some(Session {
            task: Task {
                goal: parts.goal,
                transfer: parts.transfer,
                tolerant: parts.tolerant,
                will_detach: parts.will_detach,
                detach_ms: parts.detach_ms,
            },
            progress: Progress {
                phase: parts.phase,
                actions: parts.actions,
                restarts: parts.restarts,
            },
        })
    }

    /// Returns the next action that the caller must carry out. The call changes nothing, so it may be repeated.
    pub fn next(&self) -> Action<'f> {
        self.task.action(self.progress.phase)
    }

    /// Returns the offset in the payload of the body of `next`; 0 if there is no body. The body is a slice of the payload that begins
    /// there.
    pub fn sends_from(&self) -> usize {
        match self.progress.phase {
            Phase::Block(number) => self.task.begins(number),
            _ => 0,
        }
    }

    /// Returns the part of the image in `seen` that must be kept before the session takes the result; None if `seen` has no such part.
    pub(crate) fn part<'s>(&self, seen: Seen<'s>) -> Option<UploadPart<'s>> {
        match (self.progress.phase, seen) {
            (Phase::Fetch(number), Seen::Bytes(bytes)) => self.task.part_in(number, bytes),
            _ => None,
        }
    }

    /// Passes the result of the session's action to the session. `refused` is true if the caller did not keep the part in the result.
    pub(crate) fn on_result(&mut self, seen: Seen<'_>, refused: bool) {
        let phase = self.progress.phase;
        let heard = self.task.hear(phase, seen, refused);
        self.progress = self.progress.after(&mut self.task, heard);
    }

    /// Aborts the session, as `Host::abort` does.
    pub fn abort(&mut self) {
        match self.progress.phase {
            Phase::Over(_) | Phase::OverUploaded => {}
            _ => self.progress.phase = Phase::GiveUp,
        }
    }
}
