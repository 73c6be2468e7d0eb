//! The calls of a device on flash that is written within them.

use crate::asks;
use crate::dfu::flash::Flash;
use crate::dfu::{CallFault, Dfu, Progress, Reply};

impl<F: Flash, const TRANSFER: usize> Dfu<F, TRANSFER> {
    // Has the flash carry out what is due, until there is an answer.
    fn settle(&mut self, mut reply: asks::Reply, out: &mut [u8]) -> Result<asks::Reply, CallFault> {
        while reply == asks::Reply::Asks {
            let mut bytes = [0; 256];
            let operation = self.pending(&mut bytes).ok_or(CallFault::NoDevice)?;
            let failed = operation.carry_out(&mut self.flash).is_err();
            reply = self.told(failed, out)?;
        }
        Ok(reply)
    }

    // Ends what is left of an earlier call.
    fn settle_left(&mut self) -> Result<(), CallFault> {
        let mut out = [0; 6];
        if let Some(left) = self.left(&mut out)? {
            self.settle(left, &mut out)?;
        }
        Ok(())
    }

    /// Answers a setup of the class (bmRequestType 21h or A1h), with its whole data stage if the host sends one, else `&[]`. `out` has room
    /// for a block, and the bytes of the answer are in it. Before that it does the work, if it was left out.
    ///
    /// A setup of another interface is stalled, and so is one with more bytes than a block, whose data stage need not be received. A write
    /// that fails is told to the host by dfuERROR (USB DFU 1.1, section 6.1.2), and is no fault of the call.
    ///
    /// # Errors
    ///
    /// `NoRoom` if `out` has fewer bytes than a block; `NoMedium` if the active image is not where it was; `NoDevice` if the device's
    /// memory changed. They are checked in this order. Stall the request then, and call [`Dfu::restart`].
    pub fn handle<'o>(&mut self, setup: &[u8; 8], body: &[u8], out: &'o mut [u8]) -> Result<Reply<'o>, CallFault> {
        self.work()?;
        let asked = self.asked(setup, body, out)?;
        let reply = self.settle(asked, out)?;
        match Progress::of_asked(reply, out) {
            Progress::Replied(reply) => Ok(reply),
            Progress::Writes => Err(CallFault::Writes),
        }
    }

    /// The work: an answer is out, and the block is written or the image put in place for which the host was asked to wait. Call it once
    /// the stack has sent an answer, or leave it to the next call of [`Dfu::handle`]: then a download takes longer.
    ///
    /// # Errors
    ///
    /// As [`Dfu::elapse`].
    pub fn work(&mut self) -> Result<(), CallFault> {
        self.settle_left()?;
        match self.writes_in() {
            Some(ms) => self.elapse(ms),
            None => Ok(()),
        }
    }

    /// This many milliseconds pass: of which a program in appDETACH tells the device, and no other has to.
    ///
    /// # Errors
    ///
    /// As [`Dfu::handle`], but for `NoRoom`.
    pub fn elapse(&mut self, ms: u32) -> Result<(), CallFault> {
        self.settle_left()?;
        let reply = self.passed(ms)?;
        self.settle(reply, &mut [0; 6])?;
        Ok(())
    }

    /// The bus was reset, by the reset that counts: the first one after a SET_CONFIGURATION of another value than 0, since hosts reset a
    /// device while they enumerate it. Then look at [`Dfu::state`]: in appIDLE start the image, in dfuIDLE come back in DFU mode. Before
    /// that it does the work, if it was left out.
    ///
    /// # Errors
    ///
    /// As [`Dfu::elapse`].
    pub fn usb_reset(&mut self) -> Result<(), CallFault> {
        self.work()?;
        self.reset()
    }
}
