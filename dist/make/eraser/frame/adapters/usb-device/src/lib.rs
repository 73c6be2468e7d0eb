//! A class of usb-device 0.3 for a [`Dfu`].
//!
//! **It was not compiled with the real crate**: none was at hand. It was compiled and tested over a stand-in of ours with the same calls,
//! written from memory.
//!
//! A bootloader, over a board with a bus and with flash:
//!
//! ```
//! use fustrelan::dfu::{Config, Dfu, Flash, Ids, StartFault};
//! use fustrelan_usb_device::DfuClass;
//! use usb_device::prelude::*;
//!
//! type Device<F> = Dfu<F, 128>; // the control buffer of usb-device has 128 bytes, so a block has no more
//!
//! /// Comes back once a reset of the bus ended the upgrade.
//! fn upgrade<B: usb_device::bus::UsbBus, F: Flash>(bus: &UsbBusAllocator<B>, flash: F) -> Result<F, StartFault> {
//!     let config = Config::new(Ids { vendor: 0x1209, product: 0x0001, device: 0x0100 }).busy_ms(10);
//!     let mut class = DfuClass::new(bus, Device::begin(flash, config)?);
//!     let mut usb = UsbDeviceBuilder::new(bus, UsbVidPid(0x1209, 0x0001)).build();
//!     while !class.interface().is_over() {
//!         if usb.poll(&mut [&mut class]) {
//!             class.interface().work();
//!         }
//!     }
//!     Ok(class.into_flash())
//! }
//! ```
//!
//! Answers go through the control buffer of the stack. From memory it has 128 bytes, or 256 with its feature `control-buffer-256`, and
//! `TRANSFER` can be no more. A longer data stage is stalled by the stack, and the device hears nothing of it.
#![no_std]
#![forbid(unsafe_code)]

use fustrelan::dfu::{Dfu, Flash, Interface, Reply};
use usb_device::class_prelude::*;
use usb_device::control::{Recipient, Request, RequestType};
use usb_device::{Result, UsbDirection};

/// SET_CONFIGURATION, bRequest.
const SET_CONFIGURATION: u8 = 9;

/// The class: one interface in DFU mode, without endpoints of its own.
pub struct DfuClass<F, const TRANSFER: usize> {
    interface: Interface<F, TRANSFER>,
    number: InterfaceNumber,
}

impl<F: Flash, const TRANSFER: usize> DfuClass<F, TRANSFER> {
    /// The class of a device. The stack gives its interface a number, which takes the place of that in the device's configuration.
    pub fn new<B: UsbBus>(bus: &UsbBusAllocator<B>, device: Dfu<F, TRANSFER>) -> Self {
        DfuClass { interface: Interface::new(device), number: bus.interface() }
    }

    /// The interface: to do the work, to see whether the upgrade is over, and for the device.
    pub fn interface(&mut self) -> &mut Interface<F, TRANSFER> {
        &mut self.interface
    }

    /// The flash, and no class.
    pub fn into_flash(self) -> F {
        self.interface.into_flash()
    }

    /// The setup of a request that is one of the class, for this interface.
    fn own(&self, request: &Request) -> Option<[u8; 8]> {
        let is_own = request.request_type == RequestType::Class
            && request.recipient == Recipient::Interface
            && request.index == u16::from(u8::from(self.number));
        if !is_own {
            return None;
        }
        let kind = if request.direction == UsbDirection::In { 0xa1 } else { 0x21 };
        let ([value, value_high], [index, index_high]) = (request.value.to_le_bytes(), request.index.to_le_bytes());
        let [length, length_high] = request.length.to_le_bytes();
        Some([kind, request.request, value, value_high, index, index_high, length, length_high])
    }
}

/// The value of a SET_CONFIGURATION, which the stack shows each class before it answers.
fn configured(request: &Request) -> Option<u8> {
    let is_it =
        request.request_type == RequestType::Standard && request.recipient == Recipient::Device && request.request == SET_CONFIGURATION;
    is_it.then_some(request.value as u8)
}

impl<B: UsbBus, F: Flash, const TRANSFER: usize> UsbClass<B> for DfuClass<F, TRANSFER> {
    fn get_configuration_descriptors(&self, writer: &mut DescriptorWriter) -> Result<()> {
        let [class, subclass, protocol] = Interface::<F, TRANSFER>::CLASS;
        writer.interface(self.number, class, subclass, protocol)?;
        writer.write(Interface::<F, TRANSFER>::FUNCTIONAL, &self.interface.device().functional()[2..])
    }

    fn reset(&mut self) {
        self.interface.reset();
    }

    fn control_out(&mut self, xfer: ControlOut<B>) {
        if let Some(value) = configured(xfer.request()) {
            self.interface.configured(value);
            return; // the stack answers it
        }
        let Some(setup) = self.own(xfer.request()) else {
            return; // that of another class
        };
        let is_done = self.interface.serve(&setup, xfer.data()) == Reply::Ack;
        // (What the stack can't send, the host asks for again.)
        let _ = if is_done { xfer.accept() } else { xfer.reject() };
    }

    fn control_in(&mut self, xfer: ControlIn<B>) {
        let Some(setup) = self.own(xfer.request()) else {
            return;
        };
        let _ = match self.interface.serve(&setup, &[]) {
            Reply::Data(bytes) => xfer.accept_with(bytes),
            Reply::Ack | Reply::Stall => xfer.reject(),
        };
    }
}
