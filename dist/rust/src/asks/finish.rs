// Of crates/dfu_asks/src/finish.rt, whose contracts are taken away.

//! Next write of a row, and the state of a device at the end of the row.

use crate::asks::{Asking, Noted, Reply, Sector};
use crate::device::{Answer, Config, DeviceState};
use crate::slots::{Unit, WriteFault};
use crate::wire::Code;

// Returns true if the due row of a mode writes a block.
fn is_block(mode: DeviceState) -> bool {
    match mode {
        DeviceState::DownloadSync { .. } | DeviceState::DownloadBusy { .. } => true,
        _ => false,
    }
}

// Returns the mode of a device after a row whose writes all succeeded; `len` is the length of the device's block.
fn done_mode(config: Config, mode: DeviceState, len: u32) -> DeviceState {
    match mode {
        DeviceState::DownloadSync { written, number } => DeviceState::DownloadIdle {
            written: written.saturating_add(len),
            number,
        },
        DeviceState::DownloadBusy {
            written,
            number,
            ..
        } => DeviceState::DownloadSyncWritten {
            written: written.saturating_add(len),
            number,
        },
        DeviceState::ManifestSync { .. } => DeviceState::DfuIdle,
        DeviceState::Manifest { .. } => {
            if config.functional().tolerant {
                DeviceState::ManifestSyncComplete
            } else {
                DeviceState::ManifestWaitReset
            }
        }
        mode => mode,
    }
}

// Returns the mode of a device after a row with this fault in a write: dfuERROR with the fault's code.
fn failed_mode(mode: DeviceState, fault: WriteFault) -> DeviceState {
    let block = is_block(mode);
    let code = match fault {
        WriteFault::NotVerified => Code::Verify,
        WriteFault::Failed => { if block { Code::Write } else { Code::Prog } }
    };
    DeviceState::Error { code }
}

// Joins `held` and `block`, and moves the last bytes, which don't fill a unit, to the front of `held`. Returns the number of these bytes.
fn keep_rest(unit: Unit, held: &mut [u8], held_len: usize, block: &[u8]) -> usize {
    let size = unit.size() as usize;
    let all = held_len + block.len();
    let rest = all % size;
    let from = all - rest;
    for i in 0..rest {
        let at = from + i;
        held[i] = if at < held_len {
            held[at]
        } else {
            block[at - held_len]
        };
    }
    rest
}

// Updates the note of the active image after a row in this mode. A commit reads the images; a block leaves the note unchanged.
fn note(noted: &mut Noted, mode: DeviceState, flash: &[u8], unit: Unit, sector: Sector) {
    if is_block(mode) {
        return;
    }
    if let Some(found) = Noted::find(flash, unit, sector) {
        *noted = found;
    }
}

impl Asking {
    // Moves the bytes that stay held back after a successful row to the front of `held`. Returns their number, and the number of bytes put
    // into the spare slot so far. Both are 0 unless the row wrote a block.
    fn rest_after(&self, block: &[u8], held: &mut [u8]) -> (usize, u32) {
        if !is_block(self.mode) {
            return (0, 0);
        }
        let len = self.block_len.min(block.len());
        let held_len = self.held_len.min(held.len());
        let rest = keep_rest(self.unit, held, held_len, &block[..len]);
        (rest, self.put_end.saturating_add(len as u32))
    }

    /// Ends a row whose writes all succeeded.
    pub(crate) fn finish(&mut self, block: &[u8], held: &mut [u8], flash: &[u8]) {
        note(&mut self.noted, self.mode, flash, self.unit, self.sector);
        let (held_len, put_end) = self.rest_after(block, held);
        self.held_len = held_len;
        self.put_end = put_end;
        let len = self.block_len.min(block.len());
        self.mode = done_mode(self.config, self.mode, len as u32);
        self.work = None;
    }

    /// Ends a row because one of its writes had `fault`.
    pub(crate) fn break_off(&mut self, fault: WriteFault, flash: &[u8]) {
        note(&mut self.noted, self.mode, flash, self.unit, self.sector);
        self.held_len = 0;
        self.put_end = 0;
        self.mode = failed_mode(self.mode, fault);
        self.work = None;
    }

    /// Returns the answer at the end of a row, and the number of its bytes, which are at the front of `out`. The answer is the status if a
    /// GETSTATUS requested `asked` bytes of it, else an acknowledgement.
    pub(crate) fn answer(&self, asked: Option<u16>, out: &mut [u8]) -> (Answer, usize) {
        match asked {
            None => self.give(crate::device::Reply::Ack, 0, out),
            Some(len) => self.give(crate::device::Reply::Status, len, out),
        }
    }

    /// Requests the next write of the row, or ends the row if no write is left.
    pub(crate) fn advance(
        &mut self,
        block: &[u8],
        held: &mut [u8],
        flash: &[u8],
        out: &mut [u8],
    ) -> Reply {
        let Some(work) = self.work else {
            return Reply::Answered(Answer::Ack, 0);
        };
        // An empty flash suffices here, because only the number of bytes of the next piece matters.
        let (len, _) = self.look_at(&work, block, held, &[]);
        if len > 0 {
            return Reply::Asks;
        }
        self.finish(block, held, flash);
        let (answer, count) = self.answer(work.asked, out);
        Reply::Answered(answer, count)
    }

    /// Ends the row with the `fault` of one of its writes, and writes the answer to `out`.
    pub(crate) fn fail(
        &mut self,
        fault: WriteFault,
        asked: Option<u16>,
        flash: &[u8],
        out: &mut [u8],
    ) -> (Answer, usize) {
        self.break_off(fault, flash);
        self.answer(asked, out)
    }
}
