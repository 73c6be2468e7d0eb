//! Flash of embedded-storage, blocking and awaited.
use embedded_storage::nor_flash::ErrorType;
use fustrelan::dfu::{Config, Dfu, Ids, Interface, ReadFlash, Reply, Unit};
use fustrelan_adapter_tests::host::{Answer, download};
use fustrelan_adapter_tests::image;
use fustrelan_adapter_tests::nor::{Chip, PartError, SECTOR, SIZE, Turn, WRITE};
use fustrelan_embedded_storage::{AsyncMapped, AsyncNor, Nor};
use std::future::Future;
use std::pin::pin;
use std::task::{Context, Poll, Waker};

const BLOCK: usize = 1024;

fn config() -> Config {
    Config::new(Ids { vendor: 0x1209, product: 1, device: 0x0100 })
}

fn answer(reply: Reply<'_>) -> Answer {
    match reply {
        Reply::Ack => Some(Vec::new()),
        Reply::Data(bytes) => Some(bytes.to_vec()),
        Reply::Stall => None,
    }
}

#[test]
fn a_chip_takes_an_image() {
    type Device = Dfu<Nor<Chip>, BLOCK>;
    assert_eq!((<Nor<Chip> as ReadFlash>::UNIT, <Nor<Chip> as ReadFlash>::SECTOR), (Unit::Bytes16, 1024));
    let mut flash = Nor(Chip::default());
    assert_eq!(Device::format_if_blank(&mut flash, &image(500)), Ok(true));
    let mut interface = Interface::new(Device::begin(flash, config()).unwrap());
    let new = image(7777);
    assert_eq!(download(&mut |setup, body| answer(interface.serve(&setup, body)), 0, &new, BLOCK), Ok(()));
    let flash = interface.into_flash();
    assert_eq!((flash.0.0.misuse, Device::image(&flash)), (None, Some(&new[..])));
}

/// The chip, awaited.
struct SlowChip(Chip);

impl ErrorType for SlowChip {
    type Error = PartError;
}

impl embedded_storage_async::nor_flash::ReadNorFlash for SlowChip {
    const READ_SIZE: usize = 1;

    async fn read(&mut self, offset: u32, bytes: &mut [u8]) -> Result<(), PartError> {
        embedded_storage::nor_flash::ReadNorFlash::read(&mut self.0, offset, bytes)
    }

    fn capacity(&self) -> usize {
        SIZE
    }
}

impl embedded_storage_async::nor_flash::NorFlash for SlowChip {
    const WRITE_SIZE: usize = WRITE;
    const ERASE_SIZE: usize = SECTOR;

    async fn erase(&mut self, from: u32, to: u32) -> Result<(), PartError> {
        Turn::default().await;
        embedded_storage::nor_flash::NorFlash::erase(&mut self.0, from, to)
    }

    async fn write(&mut self, offset: u32, bytes: &[u8]) -> Result<(), PartError> {
        Turn::default().await;
        embedded_storage::nor_flash::NorFlash::write(&mut self.0, offset, bytes)
    }
}

impl AsyncMapped for SlowChip {
    fn bytes(&self) -> &[u8] {
        &self.0.0.bytes
    }
}

fn awaited<T>(future: impl Future<Output = T>) -> T {
    let mut future = pin!(future);
    loop {
        if let Poll::Ready(value) = future.as_mut().poll(&mut Context::from_waker(Waker::noop())) {
            return value;
        }
    }
}

#[test]
fn a_chip_that_is_awaited_takes_an_image() {
    type Device = Dfu<AsyncNor<SlowChip>, BLOCK>;
    let mut flash = AsyncNor(SlowChip(Chip::default()));
    assert_eq!(awaited(Device::format_async(&mut flash, &image(500))), Ok(()));
    let mut device = Device::begin(flash, config().busy_ms(9).manifest_ms(9)).unwrap();
    let new = image(4097);
    let mut by = |setup: [u8; 8], body: &[u8]| {
        let mut out = [0; BLOCK];
        answer(awaited(device.handle_async(&setup, body, &mut out)).expect("the device is whole"))
    };
    assert_eq!(download(&mut by, 0, &new, BLOCK), Ok(()));
    let flash = device.into_flash();
    assert_eq!((flash.0.0.0.misuse, Device::image(&flash)), (None, Some(&new[..])));
}
