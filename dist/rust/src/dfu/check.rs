//! A program that takes only its maker's images, and a stack that stalls before the data stage.

use crate::asks;
use crate::device::Objection;
use crate::dfu::flash::ReadFlash;
use crate::dfu::{CallFault, Dfu};

/// The bytes of an image that was taken and is not in place yet: those of `stored`, then those of `held`.
#[derive(Clone, Copy, Debug, PartialEq, Eq)]
pub struct Candidate<'d> {
    /// Those that are on the flash.
    pub stored: &'d [u8],
    /// Those that wait in memory, fewer than a unit.
    pub held: &'d [u8],
}

impl<F: ReadFlash, const TRANSFER: usize> Dfu<F, TRANSFER> {
    /// Whether this setup closes a download. Ask it of each setup after the work and before the setup is handed in; if it says so, look at
    /// [`Dfu::candidate`], and either hand the setup in, or call [`Dfu::refuse_close`] and stall it.
    ///
    /// # Errors
    ///
    /// `Writes` if operations are due. Stall the setup then: it must not be handed in unchecked.
    pub fn closes(&self, setup: &[u8; 8]) -> Result<bool, CallFault> {
        Ok(self.asking.closes(&self.own(setup))?)
    }

    /// The image that was taken and is not in place yet; None in other states than dfuDNLOAD-IDLE, dfuMANIFEST-SYNC before it is complete,
    /// and dfuMANIFEST.
    ///
    /// # Errors
    ///
    /// `Writes` if operations are due; `NoMedium` if the active image is not where it was; `NoDevice` if the device's memory changed. They
    /// are checked in this order.
    pub fn candidate(&self) -> Result<Option<Candidate<'_>>, CallFault> {
        let Some(found) = self.asking.candidate(self.flash.bytes())? else {
            return Ok(None);
        };
        let stored = self.flash.bytes().get(found.at as usize..).and_then(|from| from.get(..found.stored as usize));
        match (stored, self.held.get(..self.asking.held_len)) {
            (Some(stored), Some(held)) => Ok(Some(Candidate { stored, held })),
            _ => Err(CallFault::NoDevice),
        }
    }

    /// The program refuses the image that this setup closes: true if it closes one, and then the caller stalls it. The host reads
    /// errTARGET or errFILE (USB DFU 1.1, section 6.1.2).
    ///
    /// # Errors
    ///
    /// `Writes` if operations are due. Stall the setup then: it must not be handed in unchecked.
    pub fn refuse_close(&mut self, setup: &[u8; 8], objection: Objection) -> Result<bool, CallFault> {
        let own = self.own(setup);
        Ok(self.asking.refuse_close(&own, objection)?)
    }

    /// Whether [`Dfu::handle`] will stall this setup, whatever its data stage has: for a stack that acknowledges a data stage by itself, as
    /// Linux's FunctionFS does. Do the work before it. If it says so, hand the setup in with any body of its length, and stall it.
    ///
    /// # Errors
    ///
    /// `Writes` if operations are due.
    pub fn would_stall(&self, setup: &[u8; 8]) -> Result<bool, CallFault> {
        Ok(self.asking.would_stall(self.flash.bytes().len(), &self.own(setup))?)
    }

    /// Whether the flash reads as one that was never written: the gates and headers of both slots are FFh.
    pub fn is_blank(flash: &F) -> bool {
        asks::Mapped::with_sectors(flash.bytes(), F::UNIT.of_slots(), F::SECTOR).and_then(|mapped| mapped.is_blank()).unwrap_or(false)
    }
}
