// Of crates/dfu_host/src/parts.rt, whose contracts are taken away.

//! The parts of a session, as plain values.

use crate::host::fetching::MOST_PARTS;
use crate::host::goal::Goal;
use crate::host::phase::Phase;

/// The parts of a session: plain values, which a caller may keep between two calls.
#[derive(Clone, Copy, Debug, PartialEq, Eq)]
pub struct Parts<'f> {
    /// Goal of the session.
    pub goal: Goal<'f>,
    /// Largest number of bytes of a block, 1 to 65,535.
    pub transfer: u16,
    /// The descriptor's bitManifestationTolerant.
    pub tolerant: bool,
    /// The descriptor's bitWillDetach.
    pub will_detach: bool,
    /// The descriptor's wDetachTimeOut, in milliseconds.
    pub detach_ms: u16,
    /// Phase of the session.
    pub phase: Phase,
    /// Number of actions that are left.
    pub actions: u32,
    /// Number of further restarts of the device that the session tolerates.
    pub restarts: u16,
}

impl Parts<'_> {
    /// Returns true if a session can have these parts.
    pub(crate) fn is_session(&self) -> bool {
        self.transfer > 0 && self.has_some() && self.is_within()
    }

    /// Returns true if the goal is an upload, or has a payload of at least one byte.
    fn has_some(&self) -> bool {
        match &self.goal {
            Goal::Load(payload) | Goal::Verify(payload) | Goal::Compare(payload) => {
                !payload.is_empty()
            }
            Goal::Fetch => true,
        }
    }

    /// Returns true if the session has the payload, block or part that its phase needs.
    fn is_within(&self) -> bool {
        match self.phase {
            Phase::Block(number) => self.has_block(number),
            Phase::Ask(number) => self.has_block(number),
            Phase::Poll(number) => self.has_block(number),
            Phase::WaitPoll(number, _) => self.has_block(number),
            Phase::Close => self.has_block(0),
            Phase::AskLast => self.has_block(0),
            Phase::Fetch(number) => self.goal.is_fetch() && number < MOST_PARTS,
            Phase::Compare(number) => number < MOST_PARTS,
            _ => true,
        }
    }

    /// Returns true if the payload has block `number`.
    fn has_block(&self, number: usize) -> bool {
        number.saturating_mul(self.transfer as usize) < self.goal.payload().len()
    }
}
