//! The calls of a device that leave each operation on the flash to the program.

use crate::asks;
use crate::device::Answer;
use crate::dfu::flash::{Operation, ReadFlash};
use crate::dfu::{CallFault, Dfu, Reply};

/// What comes of a call without I/O: see [`Dfu::pending`].
#[derive(Clone, Copy, Debug, PartialEq, Eq)]
pub enum Progress<'o> {
    /// Operations on the flash are due, and the host waits: [`Dfu::pending`], carry it out, [`Dfu::done`], until that says otherwise.
    Writes,
    /// The answer. After [`Dfu::pass`] nobody gets one.
    Replied(Reply<'o>),
}

impl<'o> Progress<'o> {
    pub(crate) fn of_asked(reply: asks::Reply, out: &'o [u8]) -> Progress<'o> {
        match reply {
            asks::Reply::Asks => Progress::Writes,
            asks::Reply::Answered(Answer::Ack, _) => Progress::Replied(Reply::Ack),
            asks::Reply::Answered(Answer::Bytes, count) => Progress::Replied(Reply::Data(&out[..count])),
            asks::Reply::Answered(Answer::Stall, _) => Progress::Replied(Reply::Stall),
        }
    }
}

impl<F: ReadFlash, const TRANSFER: usize> Dfu<F, TRANSFER> {
    /// A setup, with its whole data stage if the host sends one, else `&[]`. `out` has room for a block, and the answer is in it.
    ///
    /// A setup of another interface is stalled, and so is one with more bytes than a block, whose data stage need not be received.
    ///
    /// # Errors
    ///
    /// As [`Dfu::handle`]; and `Writes` if operations are due.
    pub fn request<'o>(&mut self, setup: &[u8; 8], body: &[u8], out: &'o mut [u8]) -> Result<Progress<'o>, CallFault> {
        let reply = self.asked(setup, body, out)?;
        Ok(Progress::of_asked(reply, out))
    }

    /// This many milliseconds pass.
    ///
    /// # Errors
    ///
    /// As [`Dfu::elapse`]; and `Writes` if operations are due.
    pub fn pass(&mut self, ms: u32) -> Result<Progress<'static>, CallFault> {
        Ok(Progress::of_asked(self.passed(ms)?, &[]))
    }

    /// The operation that is due, whose bytes are put in the buffer; None if none is. Whoever got it carries it out, and then calls
    /// [`Dfu::done`]; any other call takes it as failed, since it may be made in part.
    ///
    /// ```
    /// use fustrelan::dfu::{Config, Dfu, Ids, Memory, Operation, Progress};
    /// # use core::error::Error;
    ///
    /// fn answered(device: &mut Dfu<Memory<2112>, 64>, setup: &[u8; 8], body: &[u8], out: &mut [u8]) -> Result<(), Box<dyn Error>> {
    ///     let mut is_due = device.request(setup, body, out)? == Progress::Writes;
    ///     while is_due {
    ///         let mut room = [0; 256];
    ///         match device.pending(&mut room) {
    ///             Some(Operation::Program { at, bytes }) => {
    ///                 device.flash_mut().0[at as usize..][..bytes.len()].copy_from_slice(bytes);
    ///             }
    ///             Some(Operation::Erase { .. }) | None => unreachable!("this flash has no sectors, and an operation is due"),
    ///         }
    ///         is_due = device.done(Ok::<(), ()>(()), out)? == Progress::Writes;
    ///     }
    ///     Ok(())
    /// }
    /// # let mut flash = Memory([0; 2112]);
    /// # Dfu::<_, 64>::format(&mut flash, b"shipped")?;
    /// # let mut device = Dfu::begin(flash, Config::new(Ids { vendor: 0x1209, product: 0x0001, device: 0x0100 }))?;
    /// # let mut out = [0; 64];
    /// # answered(&mut device, &[0x21, 1, 0, 0, 0, 0, 4, 0], b"next", &mut out)?;
    /// # answered(&mut device, &[0xa1, 3, 0, 0, 0, 0, 6, 0], &[], &mut out)?;
    /// # assert_eq!(device.state().name(), "dfuDNLOAD-IDLE");
    /// # Ok::<(), Box<dyn Error>>(())
    /// ```
    pub fn pending<'b>(&mut self, bytes: &'b mut [u8; 256]) -> Option<Operation<'b>> {
        let asked = self.asking.next(&self.block, &self.held, self.flash.bytes(), bytes)?;
        self.is_out = true;
        Some(Operation::of_asked(asked, bytes))
    }

    /// The operation that [`Dfu::pending`] gave is carried out, or failed. It is read back. `out` has room for 6 bytes.
    ///
    /// # Errors
    ///
    /// `NoRoom` if the buffer has fewer than 6 bytes; `NoDevice` if no operation is due. They are checked in this order.
    pub fn done<'o, E>(&mut self, result: Result<(), E>, out: &'o mut [u8]) -> Result<Progress<'o>, CallFault> {
        let reply = self.told(result.is_err(), out)?;
        Ok(Progress::of_asked(reply, out))
    }
}
