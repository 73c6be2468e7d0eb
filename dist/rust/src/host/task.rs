// Of crates/dfu_host/src/task.rt, whose contracts are taken away.

//! Task of a session, and the action of each phase.

use crate::host::action::Action;
use crate::host::goal::Goal;
use crate::host::phase::Phase;
use crate::host::report::Report;
use crate::wire::Request;

/// Task of a session, with the fields of its device's descriptor.
#[derive(Debug, PartialEq, Eq)]
pub(crate) struct Task<'f> {
    pub(crate) goal: Goal<'f>,
    /// Largest number of bytes of a block, at least 1.
    pub(crate) transfer: u16,
    pub(crate) tolerant: bool,
    pub(crate) will_detach: bool,
    /// Milliseconds of the descriptor's wDetachTimeOut.
    pub(crate) detach_ms: u16,
}

impl<'f> Task<'f> {
    /// Returns the payload that is sent or compared; empty for an upload.
    fn payload(&self) -> &'f [u8] {
        self.goal.payload()
    }

    /// Returns block `number`, as a slice of the payload; empty beyond the last block.
    pub(crate) fn block(&self, number: usize) -> &'f [u8] {
        let transfer = self.transfer as usize;
        let payload = self.payload();
        let rest = &payload[number.saturating_mul(transfer).min(payload.len())..];
        &rest[..transfer.min(rest.len())]
    }

    /// Returns the offset of block `number` in the payload.
    pub(crate) fn begins(&self, number: usize) -> usize {
        let all = self.payload().len();
        number.saturating_mul(self.transfer as usize).min(all)
    }

    /// Returns true if block `number` is the last one.
    pub(crate) fn is_last(&self, number: usize) -> bool {
        let transfer = self.transfer as usize;
        self.payload().len() - number * transfer <= transfer
    }

    /// Changes the goal Verify to Compare if `done` is true, because the last reset is done then. Every other goal is unchanged.
    pub(crate) fn go_on(&mut self, done: bool) {
        if !done {
            return;
        }
        if let Goal::Verify(payload) = &self.goal {
            let payload = *payload;
            self.goal = Goal::Compare(payload);
        }
    }

    /// Returns the number of blocks.
    pub(crate) fn count(&self) -> usize {
        (self.payload().len() - 1) / self.transfer as usize + 1
    }

    /// Returns the action of `phase`.
    pub(crate) fn action(&self, phase: Phase) -> Action<'f> {
        match phase {
            Phase::Find | Phase::FindAgain | Phase::Poll(_) | Phase::Manifest | Phase::Trouble => {
                send(Request::GetStatus { length: 6 }, &[])
            }
            Phase::Ask(_) | Phase::AskLast => send(Request::GetState { length: 1 }, &[]),
            Phase::Detach => {
                let timeout = self.detach_ms;
                send(Request::Detach { timeout }, &[])
            }
            Phase::Enter => self.entering(),
            Phase::Clear => send(Request::ClrStatus, &[]),
            Phase::Quit | Phase::GiveUp => send(Request::Abort, &[]),
            Phase::Block(number) => download(number, self.block(number)),
            Phase::Close => download(self.count(), &[]),
            Phase::WaitFind(poll_ms)
            | Phase::WaitPoll(_, poll_ms)
            | Phase::WaitManifest(poll_ms)
            | Phase::WaitLast(poll_ms) => Action::Wait(poll_ms),
            Phase::Fetch(block) | Phase::Compare(block) => {
                let length = self.transfer;
                send(Request::Upload { block, length }, &[])
            }
            Phase::ResetFind | Phase::Last(_) | Phase::LastUploaded => Action::Reset,
            Phase::Over(report) => Action::Done(report),
            Phase::OverUploaded => Action::Done(Report::Uploaded),
        }
    }

    /// Returns a wait of at least 1 ms if the device detaches by itself, else a reset.
    fn entering(&self) -> Action<'f> {
        if self.will_detach {
            Action::Wait(self.detach_ms.max(1) as u32)
        } else {
            Action::Reset
        }
    }
}

/// Returns the DNLOAD of `body` as block `number`. wBlockNum is the number modulo 65,536.
fn download(number: usize, body: &[u8]) -> Action<'_> {
    let block = (number % 65_536) as u16;
    let length = body.len() as u16;
    send(Request::Dnload { block, length }, body)
}

/// Returns the action that sends `request`, one of the seven class requests, with its `body`.
fn send(request: Request, body: &[u8]) -> Action<'_> {
    match request.setup() {
        Some(setup) => Action::Send {
            setup: setup.encode(),
            body,
        },
        None => unreachable!(),
    }
}
