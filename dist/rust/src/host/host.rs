// Of crates/dfu_host/src/host.rt, whose contracts are taken away.

//! The state machine of a host, and its memory for an upload.

use crate::host::action::Action;
use crate::host::fault::HostFault;
use crate::host::goal::Goal;
use crate::host::limits::Limits;
use crate::host::part::UploadPart;
use crate::host::phase::Phase;
use crate::host::refusing::{gives_uploads, goal_to_install};
use crate::host::seen::Seen;
use crate::host::session::Session;
use crate::suffix::File;
use crate::wire::{Functional, Ids};
use crate::memory::{Global, Vec};

/// A host in a session (the host's part of USB DFU 1.1, appendix A).
///
/// A host does no I/O. Its caller carries out the action that `next` returns and passes the result to `take`, until `next` returns `Done`.
/// Only the parts of an upload take memory.
#[derive(Debug, PartialEq, Eq)]
pub struct Host<'f> {
    session: Session<'f>,
    memory: Memory,
}

impl<'f> Host<'f> {
    /// Creates a host that installs a file on the device with the given descriptor and identifiers. The host borrows the file's payload;
    /// the transfer size is 1 to 65,535.
    ///
    /// The faults, in the order in which they are checked:
    ///
    /// 1. `EmptyPayload`: the payload has no bytes.
    /// 2. `WrongTarget`: the file's vendor or product is neither FFFFh nor the device's.
    /// 3. `CannotDownload`: the descriptor has bitCanDnload 0.
    /// 4. `BadDescriptor`: the descriptor's transfer size is 0.
    pub fn download(
        file: &File<'f>,
        functional: &Functional,
        device: Ids,
        limits: Limits,
    ) -> Result<Host<'f>, HostFault> {
        let goal = goal_to_install(file, functional, device, false)?;
        let session = Session::begin(goal, functional, limits);
        let memory = Memory::Nothing;
        Ok(Host { session, memory })
    }

    /// Creates a host that installs a file as `download` does. After its last reset, it uploads the active image and compares it with the
    /// payload, so that its report is Verified or Different instead of Installed or Unconfirmed. The host borrows the file's payload and
    /// takes no memory; the transfer size is 1 to 65,535. A payload of more than 65,534 full blocks can't be verified: a comparison without
    /// a difference ends with TooManyBlocks.
    ///
    /// The faults, in the order in which they are checked:
    ///
    /// 1. `EmptyPayload`: the payload has no bytes.
    /// 2. `WrongTarget`: the file's vendor or product is neither FFFFh nor the device's.
    /// 3. `CannotDownload`: the descriptor has bitCanDnload 0.
    /// 4. `CannotUpload`: the descriptor has bitCanUpload 0.
    /// 5. `BadDescriptor`: the descriptor's transfer size is 0.
    pub fn download_verified(
        file: &File<'f>,
        functional: &Functional,
        device: Ids,
        limits: Limits,
    ) -> Result<Host<'f>, HostFault> {
        let goal = goal_to_install(file, functional, device, true)?;
        let session = Session::begin(goal, functional, limits);
        let memory = Memory::Nothing;
        Ok(Host { session, memory })
    }

    /// Creates a host that fetches the active image of the device with the given descriptor. The host keeps the allocator for the parts of
    /// the image; the transfer size is 1 to 65,535.
    ///
    /// The faults, in the order in which they are checked:
    ///
    /// 1. `CannotUpload`: the descriptor has bitCanUpload 0.
    /// 2. `BadDescriptor`: the descriptor's transfer size is 0.
    pub fn upload(
        alloc: Global,
        functional: &Functional,
        limits: Limits,
    ) -> Result<Host<'f>, HostFault> {
        gives_uploads(functional)?;
        let session = Session::begin(Goal::Fetch, functional, limits);
        let memory = Memory::Bytes(Vec::new(alloc));
        Ok(Host { session, memory })
    }

    /// Returns the next action that the caller must carry out. The call changes nothing, so it may be repeated.
    pub fn next(&self) -> Action<'f> {
        self.session.next()
    }

    /// Returns the phase of the session.
    pub fn phase(&self) -> Phase {
        self.session.parts().phase
    }

    /// Passes the result of the host's action to the host. For any results, the host is done after at most `Limits::actions` calls, or
    /// after one if that number is 0. After that, a call changes nothing.
    ///
    /// A part of an upload with at least 1 byte takes memory if the vector of the kept bytes must grow. If there is no memory, the session
    /// ends with the report NoMemory.
    pub fn take(&mut self, seen: Seen<'_>) {
        let refused = self.memory.refuses(&self.session, seen);
        self.session.on_result(seen, refused);
    }

    /// Aborts the session. The next action sends ABORT, and the report is Aborted, whatever the result of that action. Only the phase
    /// changes, and nothing changes if the host is done. If a download is aborted in its last steps, the device may have installed the new
    /// image nevertheless.
    pub fn abort(&mut self) {
        self.session.abort();
    }

    /// Returns the bytes that an upload keeps. Once the host is done with `Uploaded`, these are all fetched bytes; before that, the parts
    /// that arrived since the fetching last began. The slice is empty in a download, and after the session returned to finding the device,
    /// was aborted, or ended with another report.
    pub fn uploaded(&self) -> &[u8] {
        match self.session.parts().phase {
            Phase::Fetch(0) => &[],
            Phase::Fetch(_) | Phase::LastUploaded | Phase::OverUploaded => self.memory.as_slice(),
            _ => &[],
        }
    }
}

/// The memory of a host: a vector that grows with the parts of an upload, or nothing.
#[derive(Debug, PartialEq, Eq)]
pub(crate) enum Memory {
    Nothing,
    Bytes(Vec<u8>),
}

impl Memory {
    /// Keeps the part in `seen`, if there is one to keep. Returns true if the part was refused.
    pub(crate) fn refuses(&mut self, session: &Session<'_>, seen: Seen<'_>) -> bool {
        match session.part(seen) {
            Some(part) => self.refuses_part(&part),
            None => false,
        }
    }

    /// Stores `part`, and returns true if it was refused, because the vector could not grow or because there is no vector for its bytes.
    fn refuses_part(&mut self, part: &UploadPart<'_>) -> bool {
        match self {
            Memory::Nothing => !part.bytes.is_empty(),
            Memory::Bytes(kept) => is_full(kept, part),
        }
    }

    pub(crate) fn as_slice(&self) -> &[u8] {
        match self {
            Memory::Nothing => &[],
            Memory::Bytes(kept) => kept.as_slice(),
        }
    }
}

/// Stores `part` in `kept`: after the bytes that are kept already, or in their place if it is part 0. Returns true if the vector was full
/// and could not grow.
fn is_full(kept: &mut Vec<u8>, part: &UploadPart<'_>) -> bool {
    if part.number == 0 {
        kept.clear();
    }
    kept.extend_from_slice(part.bytes).is_err()
}
