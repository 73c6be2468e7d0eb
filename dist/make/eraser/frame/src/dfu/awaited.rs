//! The calls of a device on flash that is awaited. A future that is dropped within an operation leaves it as one that failed: the next call
//! ends the download by dfuERROR, because an operation that may be made in part must not be made again.

use crate::asks;
use crate::dfu::flash::AsyncFlash;
use crate::dfu::{CallFault, Dfu, Progress, Reply};

impl<F: AsyncFlash, const TRANSFER: usize> Dfu<F, TRANSFER> {
    // Awaits the flash until there is an answer.
    async fn settle_async(&mut self, mut reply: asks::Reply, out: &mut [u8]) -> Result<asks::Reply, CallFault> {
        while reply == asks::Reply::Asks {
            let mut bytes = [0; 256];
            let operation = self.pending(&mut bytes).ok_or(CallFault::NoDevice)?;
            let failed = operation.awaited(&mut self.flash).await.is_err();
            reply = self.told(failed, out)?;
        }
        Ok(reply)
    }

    // Ends what is left of an earlier call.
    async fn settle_left_async(&mut self) -> Result<(), CallFault> {
        let mut out = [0; 6];
        if let Some(left) = self.left(&mut out)? {
            self.settle_async(left, &mut out).await?;
        }
        Ok(())
    }

    /// As [`Dfu::handle`], which awaits the flash between its operations.
    ///
    /// # Errors
    ///
    /// As [`Dfu::handle`].
    pub async fn handle_async<'o>(&mut self, setup: &[u8; 8], body: &[u8], out: &'o mut [u8]) -> Result<Reply<'o>, CallFault> {
        self.work_async().await?;
        let asked = self.asked(setup, body, out)?;
        let reply = self.settle_async(asked, out).await?;
        match Progress::of_asked(reply, out) {
            Progress::Replied(reply) => Ok(reply),
            Progress::Writes => Err(CallFault::Writes),
        }
    }

    /// As [`Dfu::work`].
    ///
    /// # Errors
    ///
    /// As [`Dfu::work`].
    pub async fn work_async(&mut self) -> Result<(), CallFault> {
        self.settle_left_async().await?;
        match self.writes_in() {
            Some(ms) => self.elapse_async(ms).await,
            None => Ok(()),
        }
    }

    /// As [`Dfu::elapse`].
    ///
    /// # Errors
    ///
    /// As [`Dfu::elapse`].
    pub async fn elapse_async(&mut self, ms: u32) -> Result<(), CallFault> {
        self.settle_left_async().await?;
        let reply = self.passed(ms)?;
        self.settle_async(reply, &mut [0; 6]).await?;
        Ok(())
    }

    /// As [`Dfu::usb_reset`].
    ///
    /// # Errors
    ///
    /// As [`Dfu::usb_reset`].
    pub async fn usb_reset_async(&mut self) -> Result<(), CallFault> {
        self.work_async().await?;
        self.reset()
    }
}
