//! The configuration descriptor, as it is written.
use crate::Result;
use crate::bus::InterfaceNumber;

#[derive(Default)]
pub struct DescriptorWriter {
    pub(crate) bytes: Vec<u8>,
}

impl DescriptorWriter {
    pub fn interface(&mut self, number: InterfaceNumber, class: u8, subclass: u8, protocol: u8) -> Result<()> {
        self.write(4, &[number.0, 0, 0, class, subclass, protocol, 0])
    }

    pub fn write(&mut self, descriptor_type: u8, descriptor: &[u8]) -> Result<()> {
        self.bytes.extend_from_slice(&[descriptor.len() as u8 + 2, descriptor_type]);
        self.bytes.extend_from_slice(descriptor);
        Ok(())
    }
}
