//! A device by nusb, on Linux and macOS. It was compiled for Linux, and never met a device.

use crate::port::{Back, Found, Outcome, Port};
use fustrelan::wire::Ids;
use nusb::transfer::{Control, ControlType, Recipient, TransferError};
use nusb::{Device, DeviceInfo, Interface};
use std::time::{Duration, Instant};
use thiserror::Error;

/// bInterfaceClass and bInterfaceSubClass of DFU (USB DFU 1.1, section 4.2.3).
const CLASS: (u8, u8) = (0xfe, 0x01);
/// bInterfaceProtocol of DFU mode.
const DFU_MODE: u8 = 2;
/// bDescriptorType of the functional descriptor (USB DFU 1.1, section 4.1.3).
const FUNCTIONAL: u8 = 0x21;
/// Until a transfer counts as lost.
const TRANSFER: Duration = Duration::from_secs(5);
/// Until a device that left counts as gone, and between two looks.
const ARRIVAL: Duration = Duration::from_secs(10);
const LOOK: Duration = Duration::from_millis(200);
/// How long the system takes to settle who may open a device that came.
const SETTLE: Duration = Duration::from_secs(2);
const IN: u8 = 0xa1;
/// What Linux and macOS say of a device that left.
const ENODEV: i32 = 19;

/// Which device is wanted. What is None is not asked.
#[derive(Clone, Debug, Default)]
pub struct Wanted {
    /// idVendor and idProduct.
    pub ids: Option<(u16, u16)>,
    /// Its place on the bus, as 1-2.
    pub place: Option<String>,
    /// Its serial number.
    pub serial: Option<String>,
}

/// Why no device is taken.
#[derive(Debug, Error)]
pub enum FindFault {
    /// There is none.
    #[error("there is no such device with DFU")]
    Missing,
    /// There is more than one device or setting: to write to the wrong one is harm.
    #[error("more than one device or setting: {}", .0.join(", "))]
    Several(Vec<String>),
    /// The bus can't be listed, or the device can't be opened.
    #[error("{0}")]
    System(#[from] nusb::Error),
}

/// A device that is open, and where it is found again.
pub struct Bus {
    place: String,
    found: Found,
    open: Option<(Device, Interface)>,
}

/// Where a device is plugged in.
#[cfg(any(target_os = "linux", target_os = "android"))]
fn place_of(info: &DeviceInfo) -> String {
    info.sysfs_path().file_name().map_or_else(String::new, |name| name.to_string_lossy().into_owned())
}

/// Where a device is plugged in.
#[cfg(target_os = "macos")]
fn place_of(info: &DeviceInfo) -> String {
    format!("{:08x}", info.location_id())
}

/// Whether a device has DFU. What has none is not opened.
fn has_dfu(info: &DeviceInfo) -> bool {
    info.interfaces().any(|interface| (interface.class(), interface.subclass()) == CLASS)
}

fn is_wanted(info: &DeviceInfo, wanted: &Wanted) -> bool {
    has_dfu(info)
        && wanted.ids.is_none_or(|ids| ids == (info.vendor_id(), info.product_id()))
        && wanted.place.as_ref().is_none_or(|place| *place == place_of(info))
        && wanted.serial.as_ref().is_none_or(|serial| info.serial_number() == Some(serial))
}

/// A device for a person to choose by.
fn shown(info: &DeviceInfo) -> String {
    format!("{:04x}:{:04x} at {}", info.vendor_id(), info.product_id(), place_of(info))
}

/// Its settings with DFU, in the configuration that it is in.
fn settings_of(info: &DeviceInfo, device: &Device) -> Vec<Found> {
    let Ok(configuration) = device.active_configuration() else {
        return Vec::new();
    };
    let settings = configuration.interface_alt_settings().filter(|setting| (setting.class(), setting.subclass()) == CLASS);
    let found = settings.map(|setting| Found {
        ids: Ids { vendor: info.vendor_id(), product: info.product_id(), device: info.device_version() },
        serial: info.serial_number().unwrap_or_default().to_string(),
        interface: setting.interface_number(),
        alternate: setting.alternate_setting(),
        is_upgrade: setting.protocol() == DFU_MODE,
        functional: setting.descriptors().find(|it| it.descriptor_type() == FUNCTIONAL).map_or_else(Vec::new, |it| it.to_vec()),
    });
    found.collect()
}

impl Bus {
    /// Opens the one device that is wanted.
    ///
    /// # Errors
    ///
    /// `System` if the bus can't be listed; `Missing` if there is none; `Several` if there are more, or it has more than one setting with
    /// DFU; `System` if it can't be opened.
    pub fn find(wanted: &Wanted) -> Result<Bus, FindFault> {
        let infos: Vec<DeviceInfo> = nusb::list_devices()?.filter(|info| is_wanted(info, wanted)).collect();
        match infos.as_slice() {
            [] => Err(FindFault::Missing),
            [info] => Bus::open(info),
            _ => Err(FindFault::Several(infos.iter().map(shown).collect())),
        }
    }

    fn open(info: &DeviceInfo) -> Result<Bus, FindFault> {
        let device = info.open()?;
        let settings = settings_of(info, &device);
        let found = match settings.as_slice() {
            [] => return Err(FindFault::Missing),
            [found] => found.clone(),
            _ => return Err(FindFault::Several(settings.iter().map(|it| format!("{} alt {}", shown(info), it.alternate)).collect())),
        };
        let interface = device.claim_interface(found.interface)?;
        if found.alternate != 0 {
            interface.set_alt_setting(found.alternate)?;
        }
        Ok(Bus { place: place_of(info), found, open: Some((device, interface)) })
    }
}

impl Port for Bus {
    fn found(&self) -> &Found {
        &self.found
    }

    fn transfer(&mut self, setup: &[u8; 8], body: &[u8], into: &mut [u8]) -> Outcome {
        let Some((_, interface)) = &self.open else {
            return Outcome::Gone;
        };
        let control = Control {
            control_type: ControlType::Class,
            recipient: Recipient::Interface,
            request: setup[1],
            value: u16::from_le_bytes([setup[2], setup[3]]),
            index: u16::from(self.found.interface),
        };
        let result = if setup[0] == IN {
            interface.control_in_blocking(control, into, TRANSFER)
        } else {
            interface.control_out_blocking(control, body, TRANSFER)
        };
        match result {
            Ok(count) => Outcome::Made(count),
            Err(TransferError::Stall) => Outcome::Stalled,
            Err(TransferError::Disconnected) => Outcome::Gone,
            Err(_) => Outcome::Lost,
        }
    }

    fn reset(&mut self) -> bool {
        let Some((device, interface)) = self.open.take() else {
            return true; // it left, and comes back reset
        };
        drop(interface);
        match device.reset() {
            Ok(()) => true,
            // The device has other descriptors after the reset, and comes as a new one; or it left before.
            Err(error) => error.kind() == std::io::ErrorKind::NotFound || error.raw_os_error() == Some(ENODEV),
        }
    }

    fn wait(&mut self, ms: u32) {
        std::thread::sleep(Duration::from_millis(u64::from(ms)));
    }

    fn reopen(&mut self) -> Back {
        self.open = None;
        let wanted = Wanted { place: Some(self.place.clone()), ..Wanted::default() };
        let (began, mut seen) = (Instant::now(), None);
        while began.elapsed() < ARRIVAL {
            match Bus::find(&wanted) {
                Ok(bus) => {
                    *self = bus;
                    return Back::Here;
                }
                Err(FindFault::Several(_)) => return Back::Several,
                Err(FindFault::Missing) => seen = None,
                // The rights of a device come a moment after it does.
                Err(FindFault::System(_)) if seen.get_or_insert_with(Instant::now).elapsed() >= SETTLE => return Back::Missing,
                Err(FindFault::System(_)) => {}
            }
            std::thread::sleep(LOOK);
        }
        Back::Missing
    }
}
