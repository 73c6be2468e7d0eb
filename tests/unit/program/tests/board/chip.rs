//! A board: a device that asks for its writes, and the program that lends it memory and carries them out on flash.

use super::harm::{Harm, Kind};
use dfu::sim::Fate;
use fustrelan::asks::{Asking, Reply, Sector};
use fustrelan::device::{Answer, Config, Objection};
use fustrelan::slots::Unit;
use fustrelan::wire::Ids;

/// The answer to a request, and its bytes; none if the power went before.
pub type Answered = Option<(Answer, Vec<u8>)>;

pub struct Chip {
    pub asking: Asking,
    pub ids: Ids,
    block: [u8; 4096],
    held: [u8; 256],
    pub flash: Vec<u8>,
}

impl Chip {
    /// A board that gets power on flash with an active image.
    pub fn power_on(config: Config, ids: Ids, unit: Unit, sector: Sector, flash: Vec<u8>) -> Chip {
        let asking = Asking::power_on(config, unit, sector, &flash).expect("an image");
        Chip {
            asking,
            ids,
            block: [0; 4096],
            held: [0; 256],
            flash,
        }
    }

    /// The power goes and comes back.
    pub fn power_cycle(&mut self) {
        let Asking {
            config,
            unit,
            sector,
            ..
        } = self.asking;
        self.asking = Asking::power_on(config, unit, sector, &self.flash).expect("an image");
    }

    /// Carries out the writes that are due, until the device answers or the power goes.
    fn work_off(&mut self, fate: Fate<'_>, out: &mut [u8]) -> Option<(Answer, usize)> {
        let mut harm = Harm::of(fate, self.asking.held_len > 0);
        loop {
            let mut bytes = [0; 256];
            let piece = self
                .asking
                .next(&self.block, &self.held, &self.flash, &mut bytes)
                .expect("a piece");
            let kind = harm.carry_out(&mut self.flash, piece, &bytes);
            if kind == Kind::CutsPower {
                return None;
            }
            let reply = self.asking.took(
                &self.block,
                &mut self.held,
                &self.flash,
                kind == Kind::Fails,
                out,
            );
            if let Reply::Answered(answer, count) = reply.expect("a piece was due") {
                return Some((answer, count));
            }
        }
    }

    /// A request comes, whose writes this fate harms.
    pub fn handle(&mut self, fate: Fate<'_>, setup: &[u8; 8], body: &[u8]) -> Answered {
        let mut out = [0; 4096];
        let reply = self.asking.handle(
            &mut self.block,
            &mut self.held,
            &self.flash,
            setup,
            body,
            &mut out,
        );
        let (answer, count) = match reply.expect("no writes are due") {
            Reply::Answered(answer, count) => (answer, count),
            Reply::Asks => self.work_off(fate, &mut out)?,
        };
        Some((answer, out[..count].to_vec()))
    }

    /// So many milliseconds pass, in which this fate harms the writes.
    pub fn elapse(&mut self, fate: Fate<'_>, ms: u32) {
        let reply = self
            .asking
            .elapse(&mut self.block, &mut self.held, &self.flash, ms);
        if let Reply::Asks = reply.expect("no writes are due") {
            self.work_off(fate, &mut [0; 6]);
        }
    }

    pub fn usb_reset(&mut self) {
        let reset = self.asking.usb_reset(&self.block, &self.held, &self.flash);
        reset.expect("no writes are due");
    }

    /// The program refuses the image that this setup closes. False, with nothing changed, if it closes none.
    pub fn refuse_close(&mut self, setup: &[u8; 8], objection: Objection) -> bool {
        self.asking
            .refuse_close(setup, objection)
            .expect("no writes are due")
    }

    /// The program refuses the image that was closed, if one was.
    pub fn refuse(&mut self, objection: Objection) {
        self.asking.refuse(objection).expect("no writes are due");
    }
}
