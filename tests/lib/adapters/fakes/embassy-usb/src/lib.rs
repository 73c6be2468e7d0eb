//! The calls of embassy-usb 0.5 that a handler of one interface makes, from memory.

pub mod control {
    use crate::driver::Direction;

    #[derive(Copy, Clone, Eq, PartialEq, Debug)]
    pub enum RequestType {
        Standard,
        Class,
        Vendor,
        Reserved,
    }

    #[derive(Copy, Clone, Eq, PartialEq, Debug)]
    pub enum Recipient {
        Device,
        Interface,
        Endpoint,
        Other,
        Reserved,
    }

    #[derive(Copy, Clone, Eq, PartialEq, Debug)]
    pub struct Request {
        pub direction: Direction,
        pub request_type: RequestType,
        pub recipient: Recipient,
        pub request: u8,
        pub value: u16,
        pub index: u16,
        pub length: u16,
    }

    #[derive(Eq, PartialEq, Debug)]
    pub enum OutResponse {
        Accepted,
        Rejected,
    }

    #[derive(Eq, PartialEq, Debug)]
    pub enum InResponse<'a> {
        Accepted(&'a [u8]),
        Rejected,
    }
}

pub mod driver {
    #[derive(Copy, Clone, Eq, PartialEq, Debug)]
    pub enum Direction {
        Out,
        In,
    }

    /// The driver of a bus. The trait of embassy-usb-driver has endpoints, and this has nothing.
    pub trait Driver<'a> {}
}

pub mod types {
    #[derive(Copy, Clone, Eq, PartialEq, Debug)]
    pub struct InterfaceNumber(pub u8);

    pub struct StringIndex(pub u8);
}

mod builder;

pub use builder::{Builder, FunctionBuilder, InterfaceAltBuilder, InterfaceBuilder, UsbDevice};

pub trait Handler {
    fn enabled(&mut self, _enabled: bool) {}
    fn reset(&mut self) {}
    fn addressed(&mut self, _addr: u8) {}
    fn configured(&mut self, _configured: bool) {}
    fn suspended(&mut self, _suspended: bool) {}
    fn control_out(&mut self, req: control::Request, data: &[u8]) -> Option<control::OutResponse> {
        let _ = (req, data);
        None
    }
    fn control_in<'a>(&'a mut self, req: control::Request, buf: &'a mut [u8]) -> Option<control::InResponse<'a>> {
        let _ = (req, buf);
        None
    }
}
