//! A bus. The trait is not that of usb-device, which has endpoints and packets: this one has whole control transfers.
use std::cell::Cell;

/// What came.
pub enum Event {
    Nothing,
    Reset,
    /// A setup, with its data stage if the host sends one.
    Control([u8; 8], Vec<u8>),
}

pub trait UsbBus: Sized {
    fn poll(&self) -> Event;
    /// The bytes of the answer; None for a stall.
    fn answer(&self, answer: Option<Vec<u8>>);
}

#[derive(Copy, Clone, Eq, PartialEq, Debug)]
pub struct InterfaceNumber(pub(crate) u8);

impl From<InterfaceNumber> for u8 {
    fn from(number: InterfaceNumber) -> u8 {
        number.0
    }
}

pub struct UsbBusAllocator<B: UsbBus> {
    pub(crate) bus: B,
    next: Cell<u8>,
}

impl<B: UsbBus> UsbBusAllocator<B> {
    pub fn new(bus: B) -> Self {
        UsbBusAllocator { bus, next: Cell::new(0) }
    }

    pub fn interface(&self) -> InterfaceNumber {
        InterfaceNumber(self.next.replace(self.next.get() + 1))
    }
}
