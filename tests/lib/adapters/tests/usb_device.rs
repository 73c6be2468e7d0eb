//! The class of usb-device, over a bus that hands in whole control transfers.
use fustrelan::dfu::{Config, Dfu, Ids};
use fustrelan_adapter_tests::host::{Answer, download, get, out, status, upload};
use fustrelan_adapter_tests::image;
use fustrelan_adapter_tests::nor::Part;
use fustrelan_usb_device::DfuClass;
use std::cell::RefCell;
use usb_device::bus::{Event, UsbBus};
use usb_device::class_prelude::*;
use usb_device::control::RequestType;
use usb_device::prelude::*;

const BLOCK: usize = 128;
type Device = Dfu<Part, BLOCK>;

/// What comes next, and what was answered.
#[derive(Default)]
struct Wire(RefCell<(Option<Event>, Option<Answer>)>);

impl UsbBus for &Wire {
    fn poll(&self) -> Event {
        self.0.borrow_mut().0.take().unwrap_or(Event::Nothing)
    }

    fn answer(&self, answer: Answer) {
        self.0.borrow_mut().1 = Some(answer);
    }
}

/// Another class, before that of DFU: interface 0. It answers its own requests by 77.
struct Other(InterfaceNumber);

impl<B: UsbBus> UsbClass<B> for Other {
    fn get_configuration_descriptors(&self, writer: &mut DescriptorWriter) -> usb_device::Result<()> {
        writer.interface(self.0, 0xff, 0, 0)
    }

    fn control_in(&mut self, xfer: ControlIn<B>) {
        let request = xfer.request();
        if request.request_type == RequestType::Class && request.index == u16::from(u8::from(self.0)) {
            xfer.accept_with(&[77]).unwrap();
        }
    }
}

fn shipped() -> Part {
    let mut part = Part::default();
    Device::format(&mut part, &image(300)).unwrap();
    part
}

/// Plays a device with both classes. What it has after that.
fn played(play: impl FnOnce(&mut dyn FnMut(Event) -> Option<Answer>)) -> DfuClass<Part, BLOCK> {
    let wire = Wire::default();
    let bus = UsbBusAllocator::new(&wire);
    let mut other = Other(bus.interface());
    let config = Config::new(Ids { vendor: 0x1209, product: 1, device: 0x0100 }).busy_ms(2);
    let mut class = DfuClass::new(&bus, Device::begin(shipped(), config).unwrap());
    let mut usb = UsbDeviceBuilder::new(&bus, UsbVidPid(0x1209, 1)).build();
    play(&mut |event| {
        wire.0.borrow_mut().0 = Some(event);
        if usb.poll(&mut [&mut other, &mut class]) {
            class.interface().work();
        }
        wire.0.borrow_mut().1.take()
    });
    class
}

/// How the wire answers a request.
fn by(wire: &mut dyn FnMut(Event) -> Option<Answer>) -> impl FnMut([u8; 8], &[u8]) -> Answer {
    |setup, body| wire(Event::Control(setup, body.to_vec())).expect("it is answered")
}

fn configured(wire: &mut dyn FnMut(Event) -> Option<Answer>) {
    wire(Event::Reset);
    wire(Event::Reset);
    assert_eq!(by(wire)([0, 9, 1, 0, 0, 0, 0, 0], &[]), Some(Vec::new()));
}

#[test]
fn a_download_is_given_back_and_found() {
    let new = image(7000);
    let mut class = played(|wire| {
        configured(wire);
        assert_eq!(download(&mut by(wire), 1, &new, BLOCK), Ok(()));
        assert_eq!(upload(&mut by(wire), 1, BLOCK).unwrap(), new);
        wire(Event::Reset);
    });
    assert!(class.interface().is_over());
    let part = class.into_flash();
    assert_eq!((part.misuse, Device::image(&part)), (None, Some(&new[..])));
}

#[test]
fn its_descriptors_are_those_of_dfu_mode() {
    played(|wire| {
        let found = by(wire)([0x80, 6, 0, 2, 0, 0, 255, 0], &[]).unwrap();
        assert_eq!(found[9..18], [9, 4, 1, 0, 0, 0xfe, 1, 2, 0]);
        assert_eq!(found[18..], [9, 0x21, 7, 0xe8, 3, 128, 0, 0x10, 1]);
    });
}

#[test]
fn requests_of_others_are_left_to_them() {
    played(|wire| {
        configured(wire);
        assert_eq!(by(wire)(get(3, 0, 0, 6), &[]), Some(vec![77]));
        assert_eq!(by(wire)(get(3, 0, 2, 6), &[]), None);
        assert_eq!(by(wire)([0xa2, 3, 0, 0, 1, 0, 6, 0], &[]), None); // to an endpoint
        assert_eq!(by(wire)([0xc1, 3, 0, 0, 1, 0, 6, 0], &[]), None); // of a vendor
        assert_eq!(by(wire)(out(1, 0, 0, 4), b"none"), None);
        assert_eq!(status(&mut by(wire), 1), (2, 0));
    });
}

#[test]
fn resets_of_an_enumeration_do_not_end_the_upgrade() {
    let mut class = played(|wire| {
        wire(Event::Reset);
        configured(wire);
    });
    assert!(!class.interface().is_over());
    let mut class = played(|wire| {
        configured(wire);
        wire(Event::Reset);
    });
    assert!(class.interface().is_over());
}

#[test]
fn a_stall_leaves_an_error_to_read() {
    played(|wire| {
        configured(wire);
        assert_eq!(by(wire)(out(1, 0, 1, 0), &[]), None);
        assert_eq!(status(&mut by(wire), 1), (10, 15));
        assert_eq!(by(wire)(out(4, 0, 1, 0), &[]), Some(Vec::new()));
        assert_eq!(status(&mut by(wire), 1), (2, 0));
    });
}
