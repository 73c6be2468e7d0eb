// Of crates/dfuse_host/src/command.rt, whose contracts are taken away.

//! DfuSe commands, and the phases that follow them.

use crate::dfuse::session::image::image_end;
use crate::dfuse::session::phase::{Phase, Standing};
use crate::dfuse::session::place::Place;
use crate::dfuse::session::plan::Plan;
use crate::dfuse::session::step::Step;
use crate::dfuse::session::work::Work;

/// DfuSe command, which a session sends with a DNLOAD.
#[derive(Clone, Copy, Debug, PartialEq, Eq)]
pub(crate) enum Command {
    /// Set the address pointer.
    SetAddress(u64),
    /// Erase the page that contains this address.
    ErasePage(u64),
    /// Write the bytes of the image from this address on. The pointer must already hold this address.
    Write(u64),
}

/// Returns the next command for writing the bytes at `at`: `Write` if the pointer was set to `at`, and `SetAddress` otherwise.
fn command_to_write(place: Place, at: u64) -> Command {
    match place {
        Place::At(pointer) if pointer == at => Command::Write(at),
        _ => Command::SetAddress(at),
    }
}

/// Returns the phase that clears the device before `work` goes on.
pub(crate) fn cleared(work: Work) -> Phase {
    Phase::On(Standing {
        work,
        place: Place::Lost,
        step: Step::Abort,
    })
}

impl Plan<'_> {
    /// Returns the command of `work`, which depends on the known address in the pointer.
    pub(crate) fn command_of(&self, work: Work, place: Place) -> Command {
        match work {
            Work::Erase { at } => Command::ErasePage(self.page_start(at)),
            Work::EraseAgain { page, .. } => Command::ErasePage(page),
            Work::Write { at, .. } | Work::WriteFront { at } => command_to_write(place, at),
            Work::Compare { at } | Work::CompareFront { at } => Command::SetAddress(at),
            Work::Leave => Command::SetAddress(self.start as u64),
        }
    }

    /// Returns the address at which `work` ends; 0 for `Leave`.
    pub(crate) fn end_of_work(&self, work: Work) -> u64 {
        match work {
            Work::EraseAgain { end, .. } | Work::Write { end, .. } => end,
            Work::Erase { .. } | Work::Compare { .. } => image_end(self.image),
            Work::WriteFront { .. } | Work::CompareFront { .. } => self.front_end(),
            Work::Leave => 0,
        }
    }

    /// Returns the phase after the page at `at` was erased for `work`.
    fn erased(&self, work: Work, at: u64) -> Phase {
        match work {
            Work::EraseAgain { page, end } => {
                self.to_write(Place::Lost, page.max(self.front_end()), end)
            }
            _ => self.to_erase(Place::Lost, self.page_end(at)),
        }
    }

    /// Returns the phase after the bytes at `at` were written for `work`.
    fn written(&self, work: Work, at: u64) -> Phase {
        match work {
            Work::Write { at: from, end } => {
                self.to_write(Place::Lost, from.max(self.write_end(at, end)), end)
            }
            _ => self.to_write_front(Place::Lost, self.write_end(at, self.front_end())),
        }
    }

    /// Returns the phase after `command` of `work` is done.
    pub(crate) fn done(&self, work: Work, command: Command) -> Phase {
        match command {
            Command::SetAddress(at) => self.settle(work, Place::At(at)),
            Command::ErasePage(at) => self.erased(work, at),
            Command::Write(at) => self.written(work, at),
        }
    }

    /// Returns the work that repeats a write that may have stopped halfway, beginning with an erase of its page. A work that doesn't write
    /// stays unchanged.
    fn again(&self, work: Work) -> Work {
        match work {
            Work::Write { at, end } => Work::EraseAgain {
                page: self.page_start(at),
                end,
            },
            Work::WriteFront { at } => Work::EraseAgain {
                page: self.page_start(at),
                end: self.page_end(at).min(image_end(self.image)),
            },
            _ => work,
        }
    }

    /// Returns the phase after a `command` that may have been started and has an unknown outcome.
    pub(crate) fn phase_when_unsure(&self, work: Work, command: Command) -> Phase {
        match command {
            Command::SetAddress(_) | Command::ErasePage(_) => cleared(work),
            Command::Write(_) => cleared(self.again(work)),
        }
    }
}
