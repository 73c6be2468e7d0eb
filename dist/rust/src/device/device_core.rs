// Of crates/dfu_device/src/device_core.rt, whose contracts are taken away.

//! Core of a device: its parts, and the changes that a decision makes to them.

use crate::device::answer::{PendingAnswer, pending_answer_of};
use crate::device::config::Profile;
use crate::device::decision::Decision;
use crate::device::device_state::DeviceState;
use crate::device::table::asked_row;
use crate::device::time_table::decide_time;
use crate::device::Config;
use arrayvec::ArrayVec;
use crate::slots::{Medium, Slots};

// Replaces the content of `block` by `bytes`.
fn hold(block: &mut ArrayVec<u8, 4096>, bytes: &[u8]) {
    block.clear();
    let _ = block.try_extend_from_slice(bytes);
}

/// Core of a device: its fixed settings, its slot store, its mode, and the memory of a block that is not written yet.
#[derive(Debug, PartialEq, Eq)]
pub struct DeviceCore<M: Medium> {
    pub config: Config,
    pub slots: Slots<M>,
    pub mode: DeviceState,
    pub block: ArrayVec<u8, 4096>,
}

impl<M: Medium> DeviceCore<M> {
    /// Returns a core with `config` in appIDLE, on `slots`. It uses `block` as the memory for blocks.
    pub(crate) fn start(config: Config, slots: Slots<M>, block: ArrayVec<u8, 4096>) -> DeviceCore<M> {
        // The result is not used: its postconditions prove the invariant `sound`.
        let _ = slots.capacity();
        DeviceCore {
            config,
            slots,
            mode: DeviceState::AppIdle,
            block,
        }
    }

    /// Returns the settings that the device table reads.
    fn profile(&self) -> Profile {
        self.config.profile(u64::from(self.slots.capacity()))
    }

    /// Returns the answer to `setup` with its `body`. A request without a row in the device table is stalled.
    pub(crate) fn pending_answer(&mut self, setup: &[u8; 8], body: &[u8]) -> PendingAnswer {
        let (decision, asked) = asked_row(&self.profile(), self.mode, setup, body);
        self.carry_out(decision, asked, body)
    }

    /// Performs `decision`. `asked` is wLength if the request is GETSTATUS or GETSTATE, and `body` is the data stage of the request.
    pub(crate) fn carry_out(&mut self, decision: Decision, asked: u16, body: &[u8]) -> PendingAnswer {
        match decision {
            Decision::Sure { reply, mode } => {
                self.mode = mode;
                pending_answer_of(reply, asked)
            }
            Decision::Holds { mode } => {
                // The result is not used: the postcondition `at_most_4096` of `transfer` proves that the body fits into the block.
                let _ = self.config.transfer();
                hold(&mut self.block, body);
                self.mode = mode;
                PendingAnswer::Ack
            }
            Decision::Sends {
                place,
                size,
                number,
            } => {
                self.mode = self.after_piece(place, size, number);
                PendingAnswer::Piece { place, asked: size }
            }
            Decision::Writes {
                reply,
                written,
                number,
                late,
            } => {
                let _ = self.write_block(written, number, late);
                pending_answer_of(reply, asked)
            }
            Decision::Commits {
                reply,
                written,
                mode,
            } => {
                let _ = self.commit_taken(written, mode);
                pending_answer_of(reply, asked)
            }
        }
    }

    /// Returns the mode after a piece of the image is sent. A piece shorter than `size` bytes is the last one.
    fn after_piece(&self, place: u32, size: u16, number: u16) -> DeviceState {
        if self.piece_len(place, size) < size {
            return DeviceState::DfuIdle;
        }
        DeviceState::UploadIdle {
            place: place + u32::from(size),
            number,
        }
    }

    /// Performs the row of `ms` elapsed milliseconds.
    pub(crate) fn elapse(&mut self, ms: u32) {
        let block_len = self.block.as_slice().len();
        let decision = decide_time(&self.profile(), self.mode, block_len, ms);
        let _ = self.carry_out(decision, 0, &[]);
    }
}
