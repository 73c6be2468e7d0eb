//! The smallest bootloader: a device whose flash is plain memory, and a host that stands in for the USB stack and installs an image of
//! four bytes. Each transfer prints its request, how many bytes its answer has, and the state. examples/c/bootloader.c prints the same.

use fustrelan::dfu::{Config, Dfu, Flash, Ids, ReadFlash, Reply, State, Unit};
use std::error::Error;

/// Both slots. What lasts through a loss of power is this; all else need not. A driver of real flash erases and programs here.
struct Chip([u8; 2112]);

impl ReadFlash for Chip {
    type Error = ();
    const UNIT: Unit = Unit::Bytes1;
    const SECTOR: u32 = 0;

    fn bytes(&self) -> &[u8] {
        &self.0
    }
}

impl Flash for Chip {
    fn erase(&mut self, _: u32) -> Result<(), ()> {
        Ok(()) // there are no sectors
    }

    fn program(&mut self, at: u32, bytes: &[u8]) -> Result<(), ()> {
        self.0[at as usize..][..bytes.len()].copy_from_slice(bytes);
        Ok(())
    }
}

/// A device with blocks of 64 bytes.
type Device = Dfu<Chip, 64>;

/// It can take and give an image, is tolerant, and has 255 ms for a detach and 5 ms for a block.
const CONFIG: Config = Config::new(Ids { vendor: 0x1209, product: 1, device: 0x0100 }).detach_ms(255).busy_ms(5);

/// What runs now: the upgrade, or the application at its place in the flash.
fn show(device: &Device, what: &str, answer: i32) {
    println!("{what:<10} {answer:2} state {}", device.state().byte());
    if device.state() == State::AppIdle {
        let image = Device::image(device.flash()).expect("an image is active");
        println!("application of {} bytes, the first {:02x}", image.len(), image[0]);
    }
}

/// A control transfer, as a USB stack hands it in, with its whole data stage. Then the answer is out, and the work is done.
fn transfer(device: &mut Device, what: &str, setup: [u8; 8], body: &[u8]) -> Result<(), Box<dyn Error>> {
    let mut out = [0; 64];
    let answer = match device.handle(&setup, body, &mut out)? {
        Reply::Ack => 0,
        Reply::Data(bytes) => bytes.len() as i32,
        Reply::Stall => -1,
    };
    show(device, what, answer);
    Ok(device.work()?)
}

fn download(device: &mut Device, number: u8, bytes: &[u8]) -> Result<(), Box<dyn Error>> {
    transfer(device, "DNLOAD", [0x21, 1, number, 0, 0, 0, bytes.len() as u8, 0], bytes)
}

fn get_status(device: &mut Device) -> Result<(), Box<dyn Error>> {
    transfer(device, "GETSTATUS", [0xa1, 3, 0, 0, 0, 0, 6, 0], &[])
}

fn bus_reset(device: &mut Device) -> Result<(), Box<dyn Error>> {
    device.usb_reset()?;
    show(device, "bus reset", 0);
    Ok(())
}

fn main() -> Result<(), Box<dyn Error>> {
    let mut chip = Chip([0xff; 2112]);
    Device::format(&mut chip, &[0x11, 0x22]).expect("the flash has two slots");
    let mut device = Device::power_on(chip, CONFIG)?;
    show(&device, "power on", 0);
    transfer(&mut device, "DETACH", [0x21, 0, 0xe8, 3, 0, 0, 0, 0], &[])?;
    bus_reset(&mut device)?;
    download(&mut device, 0, &[0xaa, 0xbb, 0xcc, 0xdd])?;
    get_status(&mut device)?;
    get_status(&mut device)?;
    download(&mut device, 1, &[])?;
    get_status(&mut device)?;
    bus_reset(&mut device)?;
    let device = Device::power_on(device.into_flash(), CONFIG)?;
    show(&device, "power on", 0);
    Ok(())
}
