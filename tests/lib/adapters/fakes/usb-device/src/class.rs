//! A class, and the control transfers that it is shown.
use crate::bus::UsbBus;
use crate::control::Request;
use crate::descriptor::DescriptorWriter;
use crate::{CONTROL_BUFFER, Result, UsbError};
use std::marker::PhantomData;

pub trait UsbClass<B: UsbBus> {
    fn get_configuration_descriptors(&self, writer: &mut DescriptorWriter) -> Result<()> {
        let _ = writer;
        Ok(())
    }
    fn reset(&mut self) {}
    fn poll(&mut self) {}
    fn control_out(&mut self, xfer: ControlOut<B>) {
        let _ = xfer;
    }
    fn control_in(&mut self, xfer: ControlIn<B>) {
        let _ = xfer;
    }
}

/// What a class did with a transfer.
#[derive(Default)]
pub(crate) enum Fate {
    #[default]
    Passed,
    Accepted(Vec<u8>),
    Rejected,
}

pub struct ControlOut<'a, B: UsbBus> {
    pub(crate) request: &'a Request,
    pub(crate) data: &'a [u8],
    pub(crate) fate: &'a mut Fate,
    pub(crate) bus: PhantomData<&'a B>,
}

impl<B: UsbBus> ControlOut<'_, B> {
    pub fn request(&self) -> &Request {
        self.request
    }

    pub fn data(&self) -> &[u8] {
        self.data
    }

    pub fn accept(self) -> Result<()> {
        *self.fate = Fate::Accepted(Vec::new());
        Ok(())
    }

    pub fn reject(self) -> Result<()> {
        *self.fate = Fate::Rejected;
        Ok(())
    }
}

pub struct ControlIn<'a, B: UsbBus> {
    pub(crate) request: &'a Request,
    pub(crate) fate: &'a mut Fate,
    pub(crate) bus: PhantomData<&'a B>,
}

impl<B: UsbBus> ControlIn<'_, B> {
    pub fn request(&self) -> &Request {
        self.request
    }

    pub fn accept_with(self, data: &[u8]) -> Result<()> {
        if data.len() > CONTROL_BUFFER {
            *self.fate = Fate::Rejected;
            return Err(UsbError::BufferOverflow);
        }
        *self.fate = Fate::Accepted(data.to_vec());
        Ok(())
    }

    pub fn reject(self) -> Result<()> {
        *self.fate = Fate::Rejected;
        Ok(())
    }
}
