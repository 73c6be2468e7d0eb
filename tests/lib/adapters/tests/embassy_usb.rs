//! The handler of embassy-usb, driven as that drives it.
use embassy_usb::control::{InResponse, OutResponse, Recipient, Request, RequestType};
use embassy_usb::driver::{Direction, Driver};
use embassy_usb::{Builder, Handler};
use fustrelan::dfu::{Config, Dfu, Ids};
use fustrelan_adapter_tests::host::{Answer, download, get, out, status, upload};
use fustrelan_adapter_tests::image;
use fustrelan_adapter_tests::nor::Part;
use fustrelan_embassy_usb::{DfuHandler, add_dfu};
use std::sync::atomic::{AtomicUsize, Ordering};

const BLOCK: usize = 512;
type Device = Dfu<Part, BLOCK>;

struct NoDriver;
impl Driver<'_> for NoDriver {}

static ENDED: AtomicUsize = AtomicUsize::new(0);

fn ended() {
    ENDED.fetch_add(1, Ordering::SeqCst);
}

fn handler() -> DfuHandler<Part, BLOCK> {
    let mut part = Part::default();
    Device::format(&mut part, &image(300)).unwrap();
    let config = Config::new(Ids { vendor: 0x1209, product: 1, device: 0x0100 });
    DfuHandler::new(Device::begin(part, config).unwrap(), ended)
}

fn request_of(setup: [u8; 8]) -> Request {
    let two = |at: usize| u16::from_le_bytes([setup[at], setup[at + 1]]);
    Request {
        direction: if setup[0] < 0x80 { Direction::Out } else { Direction::In },
        request_type: if setup[0] & 0x60 == 0x20 { RequestType::Class } else { RequestType::Vendor },
        recipient: if setup[0] & 31 == 1 { Recipient::Interface } else { Recipient::Device },
        request: setup[1],
        value: two(2),
        index: two(4),
        length: two(6),
    }
}

/// What a handler does with a request: None if it leaves it to others.
fn asked(handler: &mut dyn Handler, setup: [u8; 8], body: &[u8], room: usize) -> Option<Answer> {
    let request = request_of(setup);
    if request.direction == Direction::Out {
        return handler.control_out(request, body).map(|done| (done == OutResponse::Accepted).then(Vec::new));
    }
    let mut buffer = vec![0; room];
    handler.control_in(request, &mut buffer).map(|done| match done {
        InResponse::Accepted(bytes) => Some(bytes.to_vec()),
        InResponse::Rejected => None,
    })
}

/// Builds a device that has three interfaces before that of DFU, and plays it.
fn played(handler: &mut DfuHandler<Part, BLOCK>, play: impl FnOnce(&mut dyn Handler, &[u8])) {
    let mut builder = Builder::<NoDriver>::with_interfaces(3);
    add_dfu(&mut builder, handler);
    let mut device = builder.build();
    let descriptors = device.descriptors.clone();
    play(device.handlers[0], &descriptors);
}

#[test]
fn a_download_is_given_back_and_found() {
    let (mut made, new) = (handler(), image(6001));
    let before = ENDED.load(Ordering::SeqCst);
    played(&mut made, |handler, descriptors| {
        assert_eq!(descriptors, [9, 4, 3, 0, 0, 0xfe, 1, 2, 0, 9, 0x21, 7, 0xe8, 3, 0, 2, 0x10, 1]);
        handler.reset();
        handler.reset();
        handler.configured(true);
        let mut by = |setup: [u8; 8], body: &[u8]| asked(handler, setup, body, BLOCK).expect("it is for DFU");
        assert_eq!(download(&mut by, 3, &new, BLOCK), Ok(()));
        assert_eq!(upload(&mut by, 3, BLOCK).unwrap(), new);
        assert_eq!(ENDED.load(Ordering::SeqCst), before);
        handler.reset();
        assert_eq!(ENDED.load(Ordering::SeqCst), before + 1);
    });
    let part = made.interface().device().flash();
    assert_eq!((part.misuse, Device::image(part)), (None, Some(&new[..])));
}

#[test]
fn requests_of_others_are_left_to_them() {
    played(&mut handler(), |handler, _| {
        handler.configured(true);
        assert_eq!(asked(handler, get(3, 0, 0, 6), &[], BLOCK), None);
        assert_eq!(asked(handler, out(1, 0, 2, 4), b"none", BLOCK), None);
        assert_eq!(asked(handler, [0xc1, 3, 0, 0, 3, 0, 6, 0], &[], BLOCK), None);
        assert_eq!(asked(handler, [0xa0, 3, 0, 0, 3, 0, 6, 0], &[], BLOCK), None);
        let mut by = |setup: [u8; 8], body: &[u8]| asked(handler, setup, body, BLOCK).expect("it is for DFU");
        assert_eq!(status(&mut by, 3), (2, 0));
        assert_eq!(by(out(1, 0, 3, 0), &[]), None);
        assert_eq!(status(&mut by, 3), (10, 15));
    });
}

#[test]
fn an_answer_that_has_no_room_is_rejected() {
    played(&mut handler(), |handler, _| {
        assert_eq!(asked(handler, get(2, 0, 3, BLOCK), &[], 64), Some(None));
        assert_eq!(asked(handler, get(3, 0, 3, 6), &[], 64).unwrap().unwrap().len(), 6);
    });
}
