//! The calls of usb-device 0.3 that a class of one interface makes, from memory; and a device that takes whole control transfers of a bus.

pub mod bus;
pub mod class;
pub mod control;
pub mod descriptor;
pub mod device;

/// How many bytes a data stage has at most.
pub const CONTROL_BUFFER: usize = 128;

#[derive(Copy, Clone, Eq, PartialEq, Debug)]
pub enum UsbError {
    WouldBlock,
    BufferOverflow,
    InvalidState,
}

#[derive(Copy, Clone, Eq, PartialEq, Debug)]
pub enum UsbDirection {
    Out,
    In,
}

pub type Result<T> = std::result::Result<T, UsbError>;

pub mod class_prelude {
    pub use crate::UsbError;
    pub use crate::bus::{InterfaceNumber, UsbBus, UsbBusAllocator};
    pub use crate::class::{ControlIn, ControlOut, UsbClass};
    pub use crate::descriptor::DescriptorWriter;
}

pub mod prelude {
    pub use crate::bus::UsbBusAllocator;
    pub use crate::device::{UsbDevice, UsbDeviceBuilder, UsbDeviceState, UsbVidPid};
}
