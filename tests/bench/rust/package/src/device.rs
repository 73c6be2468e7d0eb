//! A session of the device: it is formatted, takes an image by 1,024 and gives it back. device.c is the same in C.

use crate::{IMAGE, Room, TRANSFER};
use fustrelan::asks::{Asking, FlashOp, FormatProgress, Formatting, Reply, Sector};
use fustrelan::device::{Answer, Config};
use fustrelan::slots::Unit;
use fustrelan::wire::{Functional, Ids};

struct Board<'r> {
    flash: &'r mut [u8],
    block: &'r mut [u8],
    held: &'r mut [u8],
    out: &'r mut [u8],
    device: Asking,
}

fn carry_out(flash: &mut [u8], op: FlashOp, bytes: &[u8; 256]) {
    let place = &mut flash[op.at as usize..][..op.len];
    if op.erases {
        place.fill(0xff);
    } else {
        place.copy_from_slice(&bytes[..op.len]);
    }
}

fn format(flash: &mut [u8]) -> Option<()> {
    let mut format = Formatting::start(flash, Unit::Byte, Sector::none(), &[]).ok()?;
    loop {
        let mut bytes = [0; 256];
        let op = format.next(flash, &[], &mut bytes)?;
        carry_out(flash, op, &bytes);
        match format.took(flash, &[], false)? {
            FormatProgress::Asks => {}
            FormatProgress::Formatted => return Some(()),
            FormatProgress::Broken(_) => return None,
        }
    }
}

impl Board<'_> {
    /// A request of DFU with its data stage: how many bytes answer it.
    fn serve(&mut self, kind: u8, request: u8, value: usize, size: usize, body: &[u8]) -> Option<usize> {
        let ([low, high, ..], [less, more, ..]) = (value.to_le_bytes(), size.to_le_bytes());
        let setup = [kind, request, low, high, 0, 0, less, more];
        let mut reply = self.device.handle(self.block, self.held, self.flash, &setup, body, self.out).ok()?;
        loop {
            match reply {
                Reply::Answered(Answer::Stall, _) => return None,
                Reply::Answered(_, count) => return Some(count),
                Reply::Asks => {
                    let mut bytes = [0; 256];
                    let op = self.device.next(self.block, self.held, self.flash, &mut bytes)?;
                    carry_out(self.flash, op, &bytes);
                    reply = self.device.took(self.block, self.held, self.flash, false, self.out).ok()?;
                }
            }
        }
    }

    fn is_ready(&mut self, state: u8) -> bool {
        self.serve(0xa1, 3, 0, 6, &[]) == Some(6) && self.out[4] == state
    }

    fn download(&mut self, image: &[u8]) -> Result<(), u32> {
        for (number, block) in image.chunks(TRANSFER).enumerate() {
            if self.serve(0x21, 1, number, TRANSFER, block) != Some(0) || !self.is_ready(5) {
                return Err(4);
            }
        }
        if self.serve(0x21, 1, IMAGE / TRANSFER, 0, &[]) != Some(0) || !self.is_ready(2) {
            return Err(5);
        }
        Ok(())
    }

    fn upload(&mut self, image: &[u8]) -> Result<(), u32> {
        for (number, block) in image.chunks(TRANSFER).enumerate() {
            if self.serve(0xa1, 2, number, TRANSFER, &[]) != Some(TRANSFER) || self.out[..] != *block {
                return Err(6);
            }
        }
        Ok(())
    }
}

fn run(room: &mut Room) -> Result<(), u32> {
    let functional = Functional::of_attributes(7, 255, TRANSFER as u16, 0x0110);
    let config = Config::new(Ids { device: 0x0100, product: 1, vendor: 0x1209 }, functional, 1, 0, 0).map_err(|_| 1u32)?;
    let Room { flash, block, held, out, file, .. } = room;
    format(flash).ok_or(1u32)?;
    let device = Asking::power_on(config, Unit::Byte, Sector::none(), flash).ok_or(2u32)?;
    let mut board = Board { flash, block, held, out, device };
    if board.serve(0x21, 0, 255, 0, &[]) != Some(0) {
        return Err(3);
    }
    board.device.usb_reset(board.block, board.held, board.flash).map_err(|_| 3u32)?;
    board.download(&file[..IMAGE])?;
    board.upload(&file[..IMAGE])
}

/// 0, or the number of the step that went wrong.
#[unsafe(no_mangle)]
pub extern "C" fn session(room: &mut Room) -> u32 {
    run(room).err().unwrap_or(0)
}
