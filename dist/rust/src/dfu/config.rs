//! What a device is set up with.

use crate::device;
use crate::slots::Unit;
use crate::wire::{Functional, Ids};

/// bcdDFUVersion of every device.
const VERSION: u16 = 0x0110;

/// What a device is set up with. [`Config::new`] has what most boards want, and each other call changes one thing:
///
/// ```
/// use fustrelan::dfu::{Config, Ids};
///
/// // Get numbers of your own: 1209:0001 is for tests.
/// let config = Config::new(Ids { vendor: 0x1209, product: 0x0001, device: 0x0100 })
///     .interface(2)
///     .busy_ms(35)
///     .least_image(8);
/// # assert_eq!(config.interface_number(), 2);
/// ```
///
/// The transfer size is that of [`Dfu`](crate::dfu::Dfu), and how the flash is written that of
/// [`ReadFlash`](crate::dfu::ReadFlash): each is said once.
#[derive(Clone, Copy, Debug)]
pub struct Config {
    ids: Ids,
    interface: u8,
    detach_ms: u16,
    downloads: bool,
    uploads: bool,
    tolerant: bool,
    detaches: bool,
    least: u32,
    busy_ms: u32,
    manifest_ms: u32,
    erase_ms: u16,
    program_ms: u16,
}

impl Config {
    /// A device that takes downloads and gives uploads, is tolerant of manifestation, waits 1,000 ms for a reset after DETACH, answers on
    /// interface 0, and writes each block and puts the image in place before it answers GETSTATUS.
    pub const fn new(ids: Ids) -> Config {
        Config {
            ids,
            interface: 0,
            detach_ms: 1000,
            downloads: true,
            uploads: true,
            tolerant: true,
            detaches: false,
            least: 1,
            busy_ms: 0,
            manifest_ms: 0,
            erase_ms: 0,
            program_ms: 0,
        }
    }

    /// bInterfaceNumber: a setup with another wIndex is stalled.
    #[must_use]
    pub const fn interface(self, number: u8) -> Config {
        Config { interface: number, ..self }
    }

    /// wDetachTimeOut: how long the device waits for a reset after DETACH, in milliseconds.
    #[must_use]
    pub const fn detach_ms(self, ms: u16) -> Config {
        Config { detach_ms: ms, ..self }
    }

    /// How long each block takes, 0 to 16,777,215 ms: the host waits as long after each one (bwPollTimeout). At 0 a block is
    /// written before its GETSTATUS is answered. On flash that is awaited it is at least as long as the longest block takes.
    #[must_use]
    pub const fn busy_ms(self, ms: u32) -> Config {
        Config { busy_ms: ms, ..self }
    }

    /// The same of an image that is put in place. It is at least 1 without tolerance.
    #[must_use]
    pub const fn manifest_ms(self, ms: u32) -> Config {
        Config { manifest_ms: ms, ..self }
    }

    /// How long the flash takes to erase a sector, in milliseconds. It is added to `busy_ms` and `manifest_ms` for each erase that is due
    /// for the block or the image, so that each has its own time.
    #[must_use]
    pub const fn erase_ms(self, ms: u16) -> Config {
        Config { erase_ms: ms, ..self }
    }

    /// How long it takes to program 256 bytes, in milliseconds, which is added in proportion to the bytes that are programmed.
    #[must_use]
    pub const fn program_ms(self, ms: u16) -> Config {
        Config { program_ms: ms, ..self }
    }

    /// The fewest bytes of an image, 1 to 16,777,216. A shorter one is refused with errNOTDONE.
    #[must_use]
    pub const fn least_image(self, bytes: u32) -> Config {
        Config { least: bytes, ..self }
    }

    /// No host can read the image out, and none can compare it (bitCanUpload is 0).
    #[must_use]
    pub const fn without_upload(self) -> Config {
        Config { uploads: false, ..self }
    }

    /// No host can send an image (bitCanDnload is 0).
    #[must_use]
    pub const fn without_download(self) -> Config {
        Config { downloads: false, ..self }
    }

    /// The device answers no more once it has the image, and waits for a reset (bitManifestationTolerant is 0). Say `manifest_ms` too.
    #[must_use]
    pub const fn without_tolerance(self) -> Config {
        Config { tolerant: false, ..self }
    }

    /// After DETACH the device leaves the bus by itself (bitWillDetach is 1).
    #[must_use]
    pub const fn detaches_itself(self) -> Config {
        Config { detaches: true, ..self }
    }

    /// bInterfaceNumber.
    pub const fn interface_number(&self) -> u8 {
        self.interface
    }

    /// The functional descriptor of a device with this transfer size.
    pub(crate) fn functional(&self, transfer: u16) -> Functional {
        Functional {
            can_download: self.downloads,
            can_upload: self.uploads,
            tolerant: self.tolerant,
            will_detach: self.detaches,
            detach_ms: self.detach_ms,
            transfer,
            version: VERSION,
        }
    }

    /// The configuration of a device with this transfer size, whose flash is written in this unit, in sectors of so many bytes.
    pub(crate) fn of_device(&self, transfer: u16, unit: Unit, sector: u32) -> Result<device::Config, device::ConfigFault> {
        let config = device::Config::new(self.ids, self.functional(transfer), self.least, self.busy_ms, self.manifest_ms)?;
        Ok(config.with_pace(device::Pace { erase_ms: self.erase_ms, program_ms: self.program_ms, unit, sector }))
    }
}
