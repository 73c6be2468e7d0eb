//! A handler of embassy-usb 0.5 for a [`Dfu`].
//!
//! **It was not compiled with the real crate**: none was at hand. It was compiled and tested over a stand-in of ours with the same calls,
//! written from memory.
//!
//! embassy-usb calls a handler within its task and does not await it, so the flash is written within the calls
//! ([`Flash`]), and the host gets NAK meanwhile. What waits to be written is written when the host asks again.
//!
//! ```
//! use embassy_usb::Builder;
//! use embassy_usb::driver::Driver;
//! use fustrelan::dfu::Flash;
//! use fustrelan_embassy_usb::{DfuHandler, add_dfu};
//!
//! /// `handler` is `DfuHandler::new(Dfu::begin(flash, config)?, restart)`.
//! async fn upgrade<'d, D: Driver<'d>, F: Flash>(mut builder: Builder<'d, D>, handler: &'d mut DfuHandler<F, 1024>) {
//!     add_dfu(&mut builder, handler);
//!     builder.build().run().await
//! }
//! ```
//!
//! The control buffer that the builder is given has to have `TRANSFER` bytes.
#![no_std]
#![forbid(unsafe_code)]

use embassy_usb::control::{InResponse, OutResponse, Recipient, Request, RequestType};
use embassy_usb::driver::{Direction, Driver};
use embassy_usb::types::InterfaceNumber;
use embassy_usb::{Builder, Handler};
use fustrelan::dfu::{Dfu, Flash, Interface, Reply};

/// The handler: one interface in DFU mode.
pub struct DfuHandler<F, const TRANSFER: usize> {
    interface: Interface<F, TRANSFER>,
    number: Option<InterfaceNumber>,
    on_over: fn(),
}

impl<F: Flash, const TRANSFER: usize> DfuHandler<F, TRANSFER> {
    /// The handler of a device. It calls `on_over` once a reset of the bus ended the upgrade: to restart the board, which then starts the
    /// image at [`Dfu::image`].
    pub fn new(device: Dfu<F, TRANSFER>, on_over: fn()) -> Self {
        DfuHandler { interface: Interface::new(device), number: None, on_over }
    }

    /// The interface, for the device.
    pub fn interface(&mut self) -> &mut Interface<F, TRANSFER> {
        &mut self.interface
    }

    /// The setup of a request that is one of the class, for this interface.
    fn own(&self, request: &Request) -> Option<[u8; 8]> {
        let number = self.number?;
        let is_own =
            request.request_type == RequestType::Class && request.recipient == Recipient::Interface && request.index == u16::from(number.0);
        if !is_own {
            return None;
        }
        let kind = if request.direction == Direction::In { 0xa1 } else { 0x21 };
        let ([value, value_high], [index, index_high]) = (request.value.to_le_bytes(), request.index.to_le_bytes());
        let [length, length_high] = request.length.to_le_bytes();
        Some([kind, request.request, value, value_high, index, index_high, length, length_high])
    }
}

/// Adds the interface of a device to what is built: its descriptors, and the handler.
pub fn add_dfu<'d, D: Driver<'d>, F: Flash, const TRANSFER: usize>(builder: &mut Builder<'d, D>, handler: &'d mut DfuHandler<F, TRANSFER>) {
    let [class, subclass, protocol] = Interface::<F, TRANSFER>::CLASS;
    let functional = handler.interface.device().functional();
    let mut function = builder.function(class, subclass, protocol);
    let mut interface = function.interface();
    handler.number = Some(interface.interface_number());
    let mut setting = interface.alt_setting(class, subclass, protocol, None);
    setting.descriptor(Interface::<F, TRANSFER>::FUNCTIONAL, &functional[2..]);
    drop(function);
    builder.handler(handler);
}

impl<F: Flash, const TRANSFER: usize> Handler for DfuHandler<F, TRANSFER> {
    fn configured(&mut self, configured: bool) {
        self.interface.configured(u8::from(configured));
    }

    fn reset(&mut self) {
        self.interface.reset();
        if self.interface.is_over() {
            (self.on_over)();
        }
    }

    fn control_out(&mut self, request: Request, data: &[u8]) -> Option<OutResponse> {
        let setup = self.own(&request)?;
        match self.interface.serve(&setup, data) {
            Reply::Ack => Some(OutResponse::Accepted),
            Reply::Data(_) | Reply::Stall => Some(OutResponse::Rejected),
        }
    }

    fn control_in<'a>(&'a mut self, request: Request, buffer: &'a mut [u8]) -> Option<InResponse<'a>> {
        let setup = self.own(&request)?;
        match self.interface.serve(&setup, &[]) {
            Reply::Data(bytes) => {
                let place = buffer.get_mut(..bytes.len());
                Some(place.map_or(InResponse::Rejected, |place| {
                    place.copy_from_slice(bytes);
                    InResponse::Accepted(place)
                }))
            }
            Reply::Ack | Reply::Stall => Some(InResponse::Rejected),
        }
    }
}
