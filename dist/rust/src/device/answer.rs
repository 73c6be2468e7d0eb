// Of crates/dfu_device/src/answer.rt, whose contracts are taken away.

//! Answers of a device to a setup packet. Their bytes go into a buffer of the caller.

use crate::device::decision::Reply;
use crate::device::device_core::DeviceCore;
use crate::device::device_state::status_in;
use arrayvec::ArrayVec;
use crate::slots::{Medium, Slots};

/// Answer of a device to a request. The buffer that the caller provided contains its bytes.
#[derive(Clone, Copy, Debug, PartialEq, Eq)]
pub enum Answer {
    /// Acknowledges the request, without bytes.
    Ack,
    /// Answers the request with the bytes in the buffer; there may be none.
    Bytes,
    /// Stalls the request, without bytes.
    Stall,
}

/// An answer whose bytes are not in a buffer yet. A status or a state is that of the device after the request.
///
/// `asked` is wLength: at most this many bytes are sent.
#[derive(Clone, Copy, Debug, PartialEq, Eq)]
pub(crate) enum PendingAnswer {
    Ack,
    /// Answers GETSTATUS with the status.
    Status { asked: u16 },
    /// Answers GETSTATE with the state.
    State { asked: u16 },
    /// Answers with the bytes of the active image from offset `place` on.
    Piece { place: u32, asked: u16 },
    Stall,
}

/// Returns the pending answer for `reply` to a request with wLength `asked`.
pub(crate) fn pending_answer_of(reply: Reply, asked: u16) -> PendingAnswer {
    match reply {
        Reply::Ack => PendingAnswer::Ack,
        Reply::Status => PendingAnswer::Status { asked },
        Reply::State => PendingAnswer::State { asked },
        Reply::Stall => PendingAnswer::Stall,
    }
}

impl<M: Medium> DeviceCore<M> {
    /// Answers `setup` with its `body`, and writes the bytes of the answer to `out`.
    pub(crate) fn handle(
        &mut self,
        setup: &[u8; 8],
        body: &[u8],
        out: &mut ArrayVec<u8, 4096>,
    ) -> Answer {
        // The result is not used: the postcondition `at_most_4096` of `transfer` proves that the answer fits into `out`.
        let _ = self.config.transfer();
        let pending_answer = self.pending_answer(setup, body);
        out.clear();
        self.give(pending_answer, out)
    }

    /// Writes the bytes of `pending_answer` to `out`, an empty buffer.
    fn give(&self, pending_answer: PendingAnswer, out: &mut ArrayVec<u8, 4096>) -> Answer {
        match pending_answer {
            PendingAnswer::Ack => Answer::Ack,
            PendingAnswer::Status { asked } => {
                let bytes = status_in(&self.config, self.mode, self.block.as_slice().len());
                let _ = out.try_extend_from_slice(&bytes[..usize::from(asked).min(6)]);
                Answer::Bytes
            }
            PendingAnswer::State { asked } => {
                if asked > 0 {
                    out.push(self.mode.state().byte());
                }
                Answer::Bytes
            }
            PendingAnswer::Piece { place, asked } => {
                let count = self.piece_len(place, asked);
                if count > 0 {
                    copy_image(&self.slots, place, count, out);
                }
                Answer::Bytes
            }
            PendingAnswer::Stall => Answer::Stall,
        }
    }

    /// Returns the number of bytes of the image from offset `place` on, at most `len`.
    #[inline(never)]
    pub(crate) fn piece_len(&self, place: u32, len: u16) -> u16 {
        let rest = self.slots.active_len().saturating_sub(place);
        rest.min(len as u32) as u16
    }
}

/// Copies `count` bytes of the active image, from offset `place` on, to the empty buffer `out`.
fn copy_image<M: Medium>(slots: &Slots<M>, place: u32, count: u16, out: &mut ArrayVec<u8, 4096>) {
    let mut buffer = [0; 4096];
    let piece = &mut buffer[..count as usize];
    slots.read_active(place, piece);
    let _ = out.try_extend_from_slice(piece);
}
