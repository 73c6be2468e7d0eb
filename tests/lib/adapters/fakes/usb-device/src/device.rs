//! A device that shows each control transfer to its classes, and then answers the standard ones.
use crate::bus::{Event, UsbBus, UsbBusAllocator};
use crate::class::{ControlIn, ControlOut, Fate, UsbClass};
use crate::control::{Request, RequestType};
use crate::descriptor::DescriptorWriter;
use crate::{CONTROL_BUFFER, UsbDirection};
use std::marker::PhantomData;

#[derive(Copy, Clone, Eq, PartialEq, Debug)]
pub enum UsbDeviceState {
    Default,
    Addressed,
    Configured,
}

pub struct UsbVidPid(pub u16, pub u16);

pub struct UsbDeviceBuilder<'a, B: UsbBus> {
    bus: &'a UsbBusAllocator<B>,
}

impl<'a, B: UsbBus> UsbDeviceBuilder<'a, B> {
    pub fn new(bus: &'a UsbBusAllocator<B>, _: UsbVidPid) -> Self {
        UsbDeviceBuilder { bus }
    }

    pub fn build(self) -> UsbDevice<'a, B> {
        UsbDevice { bus: &self.bus.bus, state: UsbDeviceState::Default }
    }
}

pub struct UsbDevice<'a, B: UsbBus> {
    bus: &'a B,
    state: UsbDeviceState,
}

impl<B: UsbBus> UsbDevice<'_, B> {
    pub fn state(&self) -> UsbDeviceState {
        self.state
    }

    pub fn poll(&mut self, classes: &mut [&mut dyn UsbClass<B>]) -> bool {
        match self.bus.poll() {
            Event::Nothing => return false,
            Event::Reset => {
                self.state = UsbDeviceState::Default;
                classes.iter_mut().for_each(|class| class.reset());
            }
            Event::Control(setup, data) => {
                let answer = self.control(&Request::parse(&setup), &data, classes);
                self.bus.answer(answer);
            }
        }
        classes.iter_mut().for_each(|class| class.poll());
        true
    }

    fn control(&mut self, request: &Request, data: &[u8], classes: &mut [&mut dyn UsbClass<B>]) -> Option<Vec<u8>> {
        if request.direction == UsbDirection::Out && data.len() > CONTROL_BUFFER {
            return None;
        }
        for class in classes.iter_mut() {
            let mut fate = Fate::Passed;
            if request.direction == UsbDirection::Out {
                class.control_out(ControlOut { request, data, fate: &mut fate, bus: PhantomData });
            } else {
                class.control_in(ControlIn { request, fate: &mut fate, bus: PhantomData });
            }
            match fate {
                Fate::Passed => {}
                Fate::Accepted(bytes) => return Some(bytes),
                Fate::Rejected => return None,
            }
        }
        self.standard(request, classes)
    }

    fn standard(&mut self, request: &Request, classes: &mut [&mut dyn UsbClass<B>]) -> Option<Vec<u8>> {
        match (request.request_type, request.request) {
            (RequestType::Standard, 5) => self.state = UsbDeviceState::Addressed,
            (RequestType::Standard, 9) => self.state = UsbDeviceState::Configured,
            (RequestType::Standard, 6) if request.value == 0x0200 => {
                let mut writer = DescriptorWriter::default();
                classes.iter().for_each(|class| class.get_configuration_descriptors(&mut writer).unwrap());
                return Some(writer.bytes);
            }
            _ => return None,
        }
        Some(Vec::new())
    }
}
