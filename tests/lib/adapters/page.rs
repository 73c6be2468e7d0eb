//! Types and functions around the Rust of docs/RUST.md: tests/lib/rust/page puts the page's blocks in the place of the lines
//! that name them. Nothing here is run.
#![allow(dead_code, unused_variables)]
use embedded_storage::nor_flash::{ErrorType, NorFlash, NorFlashError, NorFlashErrorKind, ReadNorFlash};
use fustrelan::dfu::{FormatFault, Reply, StartFault};
use fustrelan::host::{Action, HostFault, Limits, Report, Seen, Session};
use fustrelan::suffix::SuffixFault;
use fustrelan::wire::Functional;
use fustrelan_embedded_storage::Mapped;

#[derive(Debug)]
struct Never;
impl NorFlashError for Never {
    fn kind(&self) -> NorFlashErrorKind {
        NorFlashErrorKind::Other
    }
}
struct Chip;
impl ErrorType for Chip {
    type Error = Never;
}
impl ReadNorFlash for Chip {
    const READ_SIZE: usize = 1;
    fn read(&mut self, _: u32, _: &mut [u8]) -> Result<(), Never> {
        Ok(())
    }
    fn capacity(&self) -> usize {
        0
    }
}
impl NorFlash for Chip {
    const WRITE_SIZE: usize = 16;
    const ERASE_SIZE: usize = 1024;
    fn erase(&mut self, _: u32, _: u32) -> Result<(), Never> {
        Ok(())
    }
    fn write(&mut self, _: u32, _: &[u8]) -> Result<(), Never> {
        Ok(())
    }
}
impl Mapped for Chip {
    fn bytes(&self) -> &[u8] {
        &[]
    }
}

enum Event {
    Reset,
    Configured(u8),
    Answered,
    Setup([u8; 8], &'static [u8]),
}
struct Stack;
impl Stack {
    fn next(&mut self) -> Event {
        Event::Reset
    }
    fn answer(&mut self, _: Reply<'_>) {}
}
struct Fault;
impl From<FormatFault<Never>> for Fault {
    fn from(_: FormatFault<Never>) -> Self {
        Fault
    }
}
impl From<StartFault> for Fault {
    fn from(_: StartFault) -> Self {
        Fault
    }
}
impl From<SuffixFault> for Fault {
    fn from(_: SuffixFault) -> Self {
        Fault
    }
}
impl From<HostFault> for Fault {
    fn from(_: HostFault) -> Self {
        Fault
    }
}
const SHIPPED: &[u8] = &[0];
fn start(_: &[u8]) {}
fn restart() -> Result<(), Fault> {
    Ok(())
}

fn upgrade(chip: Chip, is_upgrade_asked: bool, mut stack: Stack) -> Result<(), Fault> {
    // block 1
    // block 2
}

struct Usb;
impl Usb {
    fn transfer(&mut self, _: &[u8; 8], _: &[u8]) -> Seen<'static> {
        Seen::Ack
    }
    fn wait(&mut self, _: u32) -> Seen<'static> {
        Seen::Waited
    }
    fn reset(&mut self) -> Seen<'static> {
        Seen::WasReset
    }
}

fn flash(bytes: Vec<u8>, functional: Functional, ids: fustrelan::wire::Ids, mut usb: Usb) -> Result<Report, Fault> {
    // block 3
    Ok(report)
}
