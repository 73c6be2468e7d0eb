// Of crates/dfu_asks/src/carry.rt, whose contracts are taken away.

//! Execution of a device's decisions, and the start of the writes that they need.

use crate::asks::noted::View;
use crate::asks::{Asking, Mapped, Reply};
use crate::device::{Answer, Decision, DeviceState, status_in};
use crate::slots::read_data;

// Returns the number of bytes that the host requests of the answer, or 0 if elapsed time caused the row.
fn wanted(asked: Option<u16>) -> u16 {
    match asked {
        Some(len) => len,
        None => 0,
    }
}

// Copies the first `asked` bytes of `bytes`, or all if there are fewer, to the front of `out`, and returns the number of copied bytes.
fn put_front(bytes: &[u8], asked: u16, out: &mut [u8]) -> usize {
    let count = usize::from(asked).min(bytes.len());
    out[..count].copy_from_slice(&bytes[..count]);
    count
}

// Copies at most `size` bytes of the active image, from offset `place` on, to the front of `out`, and returns the number of copied bytes.
// It is less than `size` if the image or `out` ends earlier.
fn put_image(medium: &Mapped<'_>, view: &View, place: u32, size: u16, out: &mut [u8]) -> usize {
    let rest = view.len.saturating_sub(place);
    let count = (rest as usize).min(usize::from(size)).min(out.len());
    if count > 0 {
        read_data(medium, view.active, place, &mut out[..count]);
    }
    count
}

impl Asking {
    /// Writes at most `asked` bytes of `reply` to the front of `out`, and returns the answer and the number of written bytes.
    pub(crate) fn give(
        &self,
        reply: crate::device::Reply,
        asked: u16,
        out: &mut [u8],
    ) -> (Answer, usize) {
        match reply {
            crate::device::Reply::Ack => (Answer::Ack, 0),
            crate::device::Reply::Stall => (Answer::Stall, 0),
            crate::device::Reply::Status => {
                let bytes = status_in(&self.config, self.mode, self.block_len);
                (Answer::Bytes, put_front(&bytes, asked, out))
            }
            crate::device::Reply::State => {
                let bytes = [self.mode.state().byte()];
                (Answer::Bytes, put_front(&bytes, asked, out))
            }
        }
    }

    /// Executes `decision`, which belongs to a request with `body`, or to elapsed time if `asked` is None. For a request, `asked` is
    /// wLength of GETSTATUS and GETSTATE, and 0 otherwise. If the decision writes, returns `Asks` to request the first write.
    pub(crate) fn carry_out(
        &mut self,
        decision: Decision,
        asked: Option<u16>,
        body: &[u8],
        block: &mut [u8],
        held: &mut [u8],
        medium: &Mapped<'_>,
        view: &View,
        out: &mut [u8],
    ) -> Reply {
        match decision {
            Decision::Sure { reply, mode } => {
                self.mode = mode;
                let (answer, count) = self.give(reply, wanted(asked), out);
                Reply::Answered(answer, count)
            }
            Decision::Holds { mode } => {
                // The body of a block is never longer than the block's memory. The limits only keep the slices within bounds.
                let len = body.len().min(block.len()).min(4096);
                block[..len].copy_from_slice(&body[..len]);
                self.block_len = len;
                self.mode = mode;
                Reply::Answered(Answer::Ack, 0)
            }
            Decision::Sends {
                place,
                size,
                number,
            } => {
                let count = put_image(medium, view, place, size, out);
                self.mode = if count < usize::from(size) {
                    DeviceState::DfuIdle
                } else {
                    DeviceState::UploadIdle {
                        place: place + u32::from(size),
                        number,
                    }
                };
                Reply::Answered(Answer::Bytes, count)
            }
            Decision::Writes { .. } | Decision::Commits { .. } => {
                self.start(asked, block, held, medium, view, out)
            }
        }
    }
}
