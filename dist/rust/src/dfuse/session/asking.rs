// Of crates/dfuse_host/src/asking.rt, whose contracts are taken away.

//! Actions of a session: the setup and body of each request, and the length of each wait.

use crate::dfuse::session::action::Action;
use crate::dfuse::session::command::Command;
use crate::dfuse::session::image::element_at;
use crate::dfuse::session::phase::Phase;
use crate::dfuse::session::place::Place;
use crate::dfuse::session::plan::Plan;
use crate::dfuse::session::step::Step;
use crate::dfuse::session::work::Work;
use crate::wire::Request;

/// Returns the bytes of the setup of `request`, which must be one of the seven requests of DFU.
fn setup_of(request: Request) -> [u8; 8] {
    match request.setup() {
        Some(setup) => setup.encode(),
        None => unreachable!(),
    }
}

/// Returns the action that sends `request`, one of the seven requests of DFU, without a body.
fn ask<'f>(request: Request) -> Action<'f> {
    Action::Send {
        setup: setup_of(request),
        body: &[],
    }
}

/// Returns the action that sends the command with this number for address `at`.
fn address_command<'f>(number: u8, at: u64) -> Action<'f> {
    let [a, b, c, d] = ((at % 0x1_0000_0000) as u32).to_le_bytes();
    Action::Command {
        setup: setup_of(Request::Dnload {
            block: 0,
            length: 5,
        }),
        body: [number, a, b, c, d],
    }
}

/// Returns the action that sends `body` with a DNLOAD of block 2, which writes it at the address in the pointer.
fn download(body: &[u8]) -> Action<'_> {
    let length = body.len() as u16;
    Action::Send {
        setup: setup_of(Request::Dnload { block: 2, length }),
        body,
    }
}

/// Returns the address that `work` has reached. It is the page's address for `EraseAgain`, and 0 for `Leave`.
pub(crate) fn stands_at(work: Work) -> u64 {
    match work {
        Work::EraseAgain { page, .. } => page,
        Work::Erase { at }
        | Work::Write { at, .. }
        | Work::Compare { at }
        | Work::WriteFront { at }
        | Work::CompareFront { at } => at,
        Work::Leave => 0,
    }
}

/// Returns the address to which the pointer was set for reading, or `at` if the session isn't reading.
fn reading_base_of(place: Place, at: u64) -> u64 {
    match place {
        Place::Reading(pointer) => pointer,
        _ => at,
    }
}

impl<'f> Plan<'f> {
    /// Returns the bytes of the image from `at` up to `end`, but not beyond the end of the element that contains `at`. The slice is empty
    /// if no element contains `at`.
    fn bytes_in(&self, at: u64, end: u64) -> &'f [u8] {
        let Some(element) = element_at(at, self.image) else {
            return &[];
        };
        let (_, from) = element
            .bytes
            .split_at((at - element.address as u64) as usize);
        let (bytes, _) = from.split_at((from.len()).min(end.saturating_sub(at) as usize));
        bytes
    }

    /// Returns the bytes of the image that one UPLOAD of `work` reads, beginning at the address that the work has reached.
    pub(crate) fn read_bytes(&self, work: Work) -> &'f [u8] {
        let at = stands_at(work);
        self.bytes_in(at, self.read_end(at, self.end_of_work(work)))
    }

    /// Returns the number of the UPLOAD block that begins at address `at`. Block 2 begins at the address in the pointer, which `place`
    /// contains while the session is reading.
    fn upload_block(&self, place: Place, at: u64) -> u16 {
        (at.saturating_sub(reading_base_of(place, at)) / self.block_size() % 65534 + 2) as u16
    }

    /// Returns the action that sends `command` of `work`.
    fn send_command(&self, work: Work, command: Command) -> Action<'f> {
        match command {
            Command::SetAddress(at) => address_command(0x21, at),
            Command::ErasePage(at) => address_command(0x41, at),
            Command::Write(at) => download(self.bytes_in(
                at,
                self.write_end(at, self.end_of_work(work)),
            )),
        }
    }

    /// Returns the UPLOAD that requests the bytes that `work` reads back next.
    fn upload(&self, work: Work, place: Place) -> Action<'f> {
        let block = self.upload_block(place, stands_at(work));
        let length = self.read_bytes(work).len() as u16;
        ask(Request::Upload { block, length })
    }

    /// Returns the action of `step` in `work`, where `place` is the session's knowledge of the address pointer.
    fn action_of(&self, work: Work, place: Place, step: Step) -> Action<'f> {
        match step {
            Step::Abort | Step::BeginReading | Step::EndReading => ask(Request::Abort),
            Step::AskState | Step::Probe | Step::CloseProbe => ask(Request::GetState { length: 1 }),
            Step::AskStatus | Step::Poll(_) | Step::ClosePoll => {
                ask(Request::GetStatus { length: 6 })
            }
            Step::ClearWait(ms) | Step::PollWait(ms) => Action::Wait(ms),
            Step::ClearStatus => ask(Request::ClrStatus),
            Step::Send => self.send_command(work, self.command_of(work, place)),
            Step::Read => self.upload(work, place),
            Step::Close => download(&[]),
        }
    }

    /// Returns the action of `phase`.
    pub(crate) fn action(&self, phase: Phase) -> Action<'f> {
        match phase {
            Phase::On(at) => self.action_of(at.work, at.place, at.step),
            Phase::Over(report) => Action::Done(report),
        }
    }
}
