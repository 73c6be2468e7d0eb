//! What builds a device, and the device, which a test drives by its handlers.
use crate::Handler;
use crate::driver::Driver;
use crate::types::{InterfaceNumber, StringIndex};
use std::marker::PhantomData;

pub struct Builder<'d, D: Driver<'d>> {
    handlers: Vec<&'d mut dyn Handler>,
    descriptors: Vec<u8>,
    interfaces: u8,
    driver: PhantomData<D>,
}

pub struct UsbDevice<'d, D: Driver<'d>> {
    pub handlers: Vec<&'d mut dyn Handler>,
    /// Those of the interfaces.
    pub descriptors: Vec<u8>,
    driver: PhantomData<D>,
}

impl<'d, D: Driver<'d>> UsbDevice<'d, D> {
    pub async fn run(&mut self) -> ! {
        std::future::pending().await
    }
}

impl<'d, D: Driver<'d>> Builder<'d, D> {
    /// (That of embassy-usb takes a driver and buffers.) So many interfaces are there before.
    pub fn with_interfaces(interfaces: u8) -> Self {
        Builder { handlers: Vec::new(), descriptors: Vec::new(), interfaces, driver: PhantomData }
    }

    pub fn function(&mut self, _class: u8, _subclass: u8, _protocol: u8) -> FunctionBuilder<'_, 'd, D> {
        FunctionBuilder { builder: self }
    }

    pub fn handler(&mut self, handler: &'d mut dyn Handler) {
        self.handlers.push(handler);
    }

    pub fn build(self) -> UsbDevice<'d, D> {
        UsbDevice { handlers: self.handlers, descriptors: self.descriptors, driver: PhantomData }
    }
}

pub struct FunctionBuilder<'a, 'd, D: Driver<'d>> {
    builder: &'a mut Builder<'d, D>,
}

impl<'d, D: Driver<'d>> Drop for FunctionBuilder<'_, 'd, D> {
    fn drop(&mut self) {}
}

impl<'d, D: Driver<'d>> FunctionBuilder<'_, 'd, D> {
    pub fn interface(&mut self) -> InterfaceBuilder<'_, 'd, D> {
        let number = InterfaceNumber(self.builder.interfaces);
        self.builder.interfaces += 1;
        InterfaceBuilder { builder: self.builder, number }
    }
}

pub struct InterfaceBuilder<'a, 'd, D: Driver<'d>> {
    builder: &'a mut Builder<'d, D>,
    number: InterfaceNumber,
}

impl<'d, D: Driver<'d>> InterfaceBuilder<'_, 'd, D> {
    pub fn interface_number(&self) -> InterfaceNumber {
        self.number
    }

    pub fn alt_setting(&mut self, class: u8, subclass: u8, protocol: u8, _: Option<StringIndex>) -> InterfaceAltBuilder<'_, 'd, D> {
        self.builder.descriptors.extend_from_slice(&[9, 4, self.number.0, 0, 0, class, subclass, protocol, 0]);
        InterfaceAltBuilder { builder: self.builder }
    }
}

pub struct InterfaceAltBuilder<'a, 'd, D: Driver<'d>> {
    builder: &'a mut Builder<'d, D>,
}

impl<'d, D: Driver<'d>> InterfaceAltBuilder<'_, 'd, D> {
    pub fn descriptor(&mut self, descriptor_type: u8, descriptor: &[u8]) {
        self.builder.descriptors.extend_from_slice(&[descriptor.len() as u8 + 2, descriptor_type]);
        self.builder.descriptors.extend_from_slice(descriptor);
    }
}
