//! A device with its memories, and its calls that do nothing by themselves.

use crate::asks::{self, Asking, addressed};
use crate::device::{self, Answer};
use crate::dfu::flash::{Checked, ReadFlash, sector_of};
use crate::dfu::{CallFault, Config, StartFault};
use crate::wire::{Code, State};

/// A device, with its flash and the memories that it needs. `TRANSFER` is wTransferSize, the most bytes of a block: 8 to 4,096.
///
/// It is [`Asking`] with what that is handed at each call, so that nothing can be left out or mixed up. A device on [`Flash`] is asked by
/// [`handle`](Dfu::handle), on [`AsyncFlash`] by [`handle_async`](Dfu::handle_async); who has neither, because writes are carried out by
/// interrupts, calls [`request`](Dfu::request), [`pending`](Dfu::pending) and [`done`](Dfu::done).
///
/// ```
/// use fustrelan::dfu::{Config, Dfu, Ids, Memory, Reply, State};
///
/// type Device = Dfu<Memory<2112>, 64>;
/// let mut flash = Memory([0; 2112]);
/// Device::format(&mut flash, b"shipped")?;
///
/// let mut device = Device::begin(flash, Config::new(Ids { vendor: 0x1209, product: 0x0001, device: 0x0100 }))?;
/// let mut out = [0; 64];
/// let download = |number: u8, len: u8| [0x21, 1, number, 0, 0, 0, len, 0];
/// let get_status = [0xa1, 3, 0, 0, 0, 0, 6, 0];
/// assert_eq!(device.handle(&download(0, 4), b"next", &mut out)?, Reply::Ack);
/// assert_eq!(device.handle(&get_status, &[], &mut out)?, Reply::Data(&[0, 0, 0, 0, 5, 0])); // OK, dfuDNLOAD-IDLE
/// assert_eq!(device.handle(&download(1, 0), &[], &mut out)?, Reply::Ack);
/// device.handle(&get_status, &[], &mut out)?;
/// assert_eq!(device.state(), State::DfuIdle);
/// assert_eq!(Device::image(device.flash()), Some(&b"next"[..]));
/// # Ok::<(), Box<dyn core::error::Error>>(())
/// ```
///
/// [`Flash`]: crate::dfu::Flash
/// [`AsyncFlash`]: crate::dfu::AsyncFlash
pub struct Dfu<F, const TRANSFER: usize> {
    pub(crate) asking: Asking,
    start: Start,
    pub(crate) config: Config,
    pub(crate) flash: F,
    pub(crate) block: [u8; TRANSFER],
    pub(crate) held: [u8; 256],
    /// Whether an operation was given out, and nobody has said how it went.
    pub(crate) is_out: bool,
}

/// What a request is answered with: see [`Dfu`].
#[derive(Clone, Copy, Debug, PartialEq, Eq)]
pub enum Reply<'o> {
    /// It is acknowledged, with no bytes.
    Ack,
    /// The host gets these bytes, at most wLength of them, and maybe none.
    Data(&'o [u8]),
    /// Endpoint 0 is stalled.
    Stall,
}

/// How a device begins: `Asking::power_on` or `Asking::begin`.
type Start = fn(device::Config, crate::slots::Unit, asks::Sector, &[u8]) -> Option<Asking>;

impl<F: ReadFlash, const TRANSFER: usize> Dfu<F, TRANSFER> {
    const TRANSFER_IS_ALLOWED: () = assert!(TRANSFER >= 8 && TRANSFER <= 4096, "TRANSFER is 8 to 4096");

    fn started(start: Start, flash: &F, config: &Config) -> Result<Asking, StartFault> {
        let () = Self::TRANSFER_IS_ALLOWED;
        let () = Checked::<F>::IS_ALLOWED;
        let settings = config.of_device(TRANSFER as u16, F::UNIT.of_slots(), F::SECTOR)?;
        start(settings, F::UNIT.of_slots(), sector_of::<F>(), flash.bytes()).ok_or(StartFault::NoImage)
    }

    fn new(start: Start, flash: F, config: Config) -> Result<Self, StartFault> {
        let asking = Self::started(start, &flash, &config)?;
        Ok(Dfu { asking, start, config, flash, block: [0; TRANSFER], held: [0; 256], is_out: false })
    }

    /// The device gets power, and is in appIDLE: for an application that answers run-time mode by this too. It reads both images.
    ///
    /// # Errors
    ///
    /// `Config` if the configuration is not allowed; `NoImage` if no image is active, or the flash has 2^32 bytes or more. They are checked
    /// in this order.
    pub fn power_on(flash: F, config: Config) -> Result<Self, StartFault> {
        Self::new(Asking::power_on, flash, config)
    }

    /// The device gets power and is in dfuIDLE (USB DFU 1.1, section 6.1.2): for a bootloader, once an upgrade is asked for. It reads both
    /// images.
    ///
    /// # Errors
    ///
    /// As [`Dfu::power_on`].
    pub fn begin(flash: F, config: Config) -> Result<Self, StartFault> {
        Self::new(Asking::begin, flash, config)
    }

    /// It begins again as it began, by [`Dfu::begin`] or [`Dfu::power_on`], on the flash that it has: after a refused call. Stall the
    /// request that was refused, and the host begins again.
    ///
    /// # Errors
    ///
    /// As [`Dfu::power_on`]; the device is as it was then.
    pub fn restart(&mut self) -> Result<(), StartFault> {
        self.asking = Self::started(self.start, &self.flash, &self.config)?;
        self.is_out = false;
        Ok(())
    }

    /// The active image, which a bootloader starts. It reads both images.
    ///
    /// None if no image is active, or the flash has 2^32 bytes or more.
    pub fn image(flash: &F) -> Option<&[u8]> {
        let place = asks::ImagePlace::find(flash.bytes(), F::UNIT.of_slots(), sector_of::<F>())?;
        flash.bytes().get(place.at as usize..)?.get(..place.len as usize)
    }

    /// The state (USB DFU 1.1, section 6.1.2, bState).
    pub fn state(&self) -> State {
        self.asking.state()
    }

    /// The status code (USB DFU 1.1, section 6.1.2, bStatus).
    pub fn code(&self) -> Code {
        self.asking.code()
    }

    /// What it is set up with.
    pub fn config(&self) -> &Config {
        &self.config
    }

    /// The functional descriptor, for the configuration descriptor (USB DFU 1.1, section 4.1.3).
    pub fn functional(&self) -> [u8; 9] {
        self.config.functional(TRANSFER as u16).encode()
    }

    /// In how many milliseconds time changes the state, at least 1; None if no time does.
    pub fn due(&self) -> Option<u32> {
        self.asking.due()
    }

    /// The flash.
    pub fn flash(&self) -> &F {
        &self.flash
    }

    /// The flash, for what its owner does with it between two calls. Nothing but the device writes the slots.
    pub fn flash_mut(&mut self) -> &mut F {
        &mut self.flash
    }

    /// The flash, and no device.
    pub fn into_flash(self) -> F {
        self.flash
    }

    /// The setup, with wIndex 0 if it is for the interface of this device.
    pub(crate) fn own(&self, setup: &[u8; 8]) -> [u8; 8] {
        addressed(self.config.interface_number(), setup)
    }

    /// How many milliseconds are to pass until the block or the image that waits is written; None if none waits.
    pub(crate) fn writes_in(&self) -> Option<u32> {
        match self.state() {
            State::DownloadBusy | State::Manifest => self.due(),
            _ => None,
        }
    }

    pub(crate) fn asked(&mut self, setup: &[u8; 8], body: &[u8], out: &mut [u8]) -> Result<asks::Reply, CallFault> {
        let own = self.own(setup);
        if self.asking.too_long(&own)? {
            return Ok(asks::Reply::Answered(Answer::Stall, 0));
        }
        Ok(self.asking.handle(&mut self.block, &mut self.held, self.flash.bytes(), &own, body, out)?)
    }

    pub(crate) fn passed(&mut self, ms: u32) -> Result<asks::Reply, CallFault> {
        Ok(self.asking.elapse(&mut self.block, &mut self.held, self.flash.bytes(), ms)?)
    }

    pub(crate) fn told(&mut self, failed: bool, out: &mut [u8]) -> Result<asks::Reply, CallFault> {
        self.is_out = false;
        Ok(self.asking.took(&self.block, &mut self.held, self.flash.bytes(), failed, out)?)
    }

    /// What is left of an earlier call, if anything is. An operation that was given out may have been carried out in part, and must not be
    /// made again: it counts as failed.
    pub(crate) fn left(&mut self, out: &mut [u8]) -> Result<Option<asks::Reply>, CallFault> {
        if self.asking.work.is_none() {
            return Ok(None);
        }
        if self.is_out { self.told(true, out).map(Some) } else { Ok(Some(asks::Reply::Asks)) }
    }

    pub(crate) fn reset(&mut self) -> Result<(), CallFault> {
        Ok(self.asking.usb_reset(&self.block, &self.held, self.flash.bytes())?)
    }
}
