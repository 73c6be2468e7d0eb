//! Requests.
use crate::UsbDirection;

#[derive(Copy, Clone, Eq, PartialEq, Debug)]
pub enum RequestType {
    Standard,
    Class,
    Vendor,
    Reserved,
}

#[derive(Copy, Clone, Eq, PartialEq, Debug)]
pub enum Recipient {
    Device,
    Interface,
    Endpoint,
    Other,
    Reserved,
}

#[derive(Copy, Clone, Eq, PartialEq, Debug)]
pub struct Request {
    pub direction: UsbDirection,
    pub request_type: RequestType,
    pub recipient: Recipient,
    pub request: u8,
    pub value: u16,
    pub index: u16,
    pub length: u16,
}

impl Request {
    pub(crate) fn parse(setup: &[u8; 8]) -> Request {
        let two = |at: usize| u16::from_le_bytes([setup[at], setup[at + 1]]);
        Request {
            direction: if setup[0] & 0x80 == 0 { UsbDirection::Out } else { UsbDirection::In },
            request_type: [RequestType::Standard, RequestType::Class, RequestType::Vendor, RequestType::Reserved]
                [usize::from(setup[0] >> 5 & 3)],
            recipient: match setup[0] & 31 {
                0 => Recipient::Device,
                1 => Recipient::Interface,
                2 => Recipient::Endpoint,
                3 => Recipient::Other,
                _ => Recipient::Reserved,
            },
            request: setup[1],
            value: two(2),
            index: two(4),
            length: two(6),
        }
    }
}
