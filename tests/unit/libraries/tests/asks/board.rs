//! A device that asks, with the memory that its calls take.

use super::chip::Chip;
use fustrelan::asks::{Asking, FlashOp, Noted, PendingWrites, Refusal, Reply, Sector};
use fustrelan::device::{Answer, Config, DeviceState};

/// The byte that follows those that the device keeps in its memory.
const SPOILT: u8 = 0xee;

/// A device that asks, with the memory of its block and of the bytes held back. Before each call the bytes after them are spoilt.
pub struct Board {
    pub device: Asking,
    pub block: [u8; 1500],
    pub held: [u8; 256],
}

/// What a board keeps between two calls, but for what it is set up with.
#[derive(Clone, Copy, PartialEq, Eq)]
pub struct Kept {
    mode: DeviceState,
    lens: (usize, usize, u32),
    noted: Noted,
    work: Option<PendingWrites>,
    block: [u8; 1500],
    held: [u8; 256],
}

impl Board {
    /// A board that gets power on this chip.
    pub fn power_on(chip: &Chip, config: Config) -> Board {
        let kind = chip.kind;
        let sector = Sector::new(kind.sector).expect("no such sector");
        let device = Asking::power_on(config, kind.unit, sector, &chip.flash).expect("no power");
        Board {
            device,
            block: [SPOILT; 1500],
            held: [SPOILT; 256],
        }
    }

    /// Spoils the bytes after those that are kept.
    pub fn spoil(&mut self) {
        self.block[self.device.block_len..].fill(SPOILT);
        self.held[self.device.held_len..].fill(SPOILT);
    }

    /// What it keeps.
    pub fn kept(&self) -> Kept {
        let device = &self.device;
        Kept {
            mode: device.mode,
            lens: (device.block_len, device.held_len, device.put_end),
            noted: device.noted,
            work: device.work,
            block: self.block,
            held: self.held,
        }
    }

    /// A request comes.
    pub fn handle(
        &mut self,
        flash: &[u8],
        setup: &[u8; 8],
        body: &[u8],
        out: &mut [u8],
    ) -> Result<Reply, Refusal> {
        self.spoil();
        self.device
            .handle(&mut self.block, &mut self.held, flash, setup, body, out)
    }

    /// A request without a body comes, and is answered at once.
    pub fn answer(&mut self, flash: &[u8], setup: &[u8; 8], out: &mut [u8]) -> (Answer, usize) {
        match self.handle(flash, setup, &[], out) {
            Ok(Reply::Answered(answer, count)) => (answer, count),
            other => panic!("no answer at once: {other:?}"),
        }
    }

    /// Time passes.
    pub fn elapse(&mut self, flash: &[u8], ms: u32) -> Result<Reply, Refusal> {
        self.spoil();
        self.device
            .elapse(&mut self.block, &mut self.held, flash, ms)
    }

    /// The bus is reset.
    pub fn usb_reset(&mut self, flash: &[u8]) -> Result<(), Refusal> {
        self.spoil();
        self.device.usb_reset(&self.block, &self.held, flash)
    }

    /// The next piece. `bytes` has what it programs.
    pub fn next(&self, flash: &[u8], bytes: &mut [u8; 256]) -> Option<FlashOp> {
        self.device.next(&self.block, &self.held, flash, bytes)
    }

    /// Whether no piece is asked for, and the buffer for its bytes is as it was.
    pub fn gives_none(&self, flash: &[u8]) -> bool {
        let mut bytes = [0xc3; 256];
        self.next(flash, &mut bytes).is_none() && bytes == [0xc3; 256]
    }

    /// A piece was carried out, or failed.
    pub fn took(&mut self, flash: &[u8], failed: bool, out: &mut [u8]) -> Result<Reply, Refusal> {
        self.spoil();
        self.device
            .took(&self.block, &mut self.held, flash, failed, out)
    }
}
