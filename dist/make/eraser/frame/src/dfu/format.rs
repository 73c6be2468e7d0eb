//! The first image of flash that was never written.

use crate::asks::{FormatProgress, Formatting};
use crate::dfu::flash::{AsyncFlash, Checked, Flash, Operation, ReadFlash, sector_of};
use crate::dfu::{Dfu, FormatFault};
use crate::slots;
use core::hint::black_box;

// Begins a format.
fn begun<F: ReadFlash>(flash: &F, image: &[u8]) -> Result<Formatting, FormatFault<F::Error>> {
    let () = Checked::<F>::IS_ALLOWED;
    Formatting::start(flash.bytes(), F::UNIT.of_slots(), sector_of::<F>(), image).map_err(|fault| match fault {
        slots::FormatFault::TooLarge => FormatFault::TooLarge,
        _ => FormatFault::WrongSize,
    })
}

// Tells a format how an operation went: whether it has ended.
fn told<F: ReadFlash>(
    format: &mut Formatting,
    flash: &F,
    image: &[u8],
    result: Result<(), F::Error>,
) -> Result<bool, FormatFault<F::Error>> {
    let progress = format.took(flash.bytes(), image, result.is_err());
    result.map_err(FormatFault::Failed)?;
    match progress {
        Some(FormatProgress::Asks) => Ok(false),
        Some(FormatProgress::Formatted) => Ok(true),
        _ => Err(FormatFault::NotVerified),
    }
}

impl<F: Flash, const TRANSFER: usize> Dfu<F, TRANSFER> {
    /// Puts a first image of 0 bytes or more on the flash and makes it the active one, whatever the flash had: **both images are lost**.
    /// A loss of power within it may leave no image. It is for a factory, a jumper or a command; [`Dfu::format_if_blank`] is for power-on.
    ///
    /// # Errors
    ///
    /// `WrongSize`, `TooLarge`: nothing is written then. `Failed`, `NotVerified`: format again; if that goes on, the flash or its driver
    /// is broken.
    pub fn format(flash: &mut F, image: &[u8]) -> Result<(), FormatFault<F::Error>> {
        let mut format = begun(flash, image)?;
        loop {
            let mut bytes = [0; 256];
            let asked = format.next(flash.bytes(), image, &mut bytes).ok_or(FormatFault::NotVerified)?;
            let result = Operation::of_asked(asked, &bytes).carry_out(flash);
            if told(&mut format, flash, image, result)? {
                return Ok(());
            }
        }
    }

    /// At power-on: [`Dfu::format`] if no image is active and the flash was never written, which is looked at twice, so that a byte
    /// which is misread once gives up no image. True if it was formatted. A damaged board is left as it is. FRAM comes with any bytes, so
    /// that nothing in it shows that it is new.
    ///
    /// # Errors
    ///
    /// As [`Dfu::format`].
    pub fn format_if_blank(flash: &mut F, image: &[u8]) -> Result<bool, FormatFault<F::Error>> {
        for _ in 0..2 {
            // (So that no compiler takes a first look for a second one.)
            let again = black_box(&*flash);
            if Self::image(again).is_some() || !Self::is_blank(again) {
                return Ok(false);
            }
        }
        Self::format(flash, image).map(|()| true)
    }
}

impl<F: AsyncFlash, const TRANSFER: usize> Dfu<F, TRANSFER> {
    /// As [`Dfu::format`], which awaits the flash between its operations.
    ///
    /// # Errors
    ///
    /// As [`Dfu::format`].
    pub async fn format_async(flash: &mut F, image: &[u8]) -> Result<(), FormatFault<F::Error>> {
        let mut format = begun(flash, image)?;
        loop {
            let mut bytes = [0; 256];
            let asked = format.next(flash.bytes(), image, &mut bytes).ok_or(FormatFault::NotVerified)?;
            let result = Operation::of_asked(asked, &bytes).awaited(flash).await;
            if told(&mut format, flash, image, result)? {
                return Ok(());
            }
        }
    }
}
