//! What a session needs of a device on a bus.

use fustrelan::wire::Ids;

/// A device with DFU, as it was found: one setting of one interface.
#[derive(Clone, Debug, PartialEq, Eq)]
pub struct Found {
    /// Of its device descriptor.
    pub ids: Ids,
    /// Its serial number; empty if it has none.
    pub serial: String,
    /// bInterfaceNumber.
    pub interface: u8,
    /// bAlternateSetting.
    pub alternate: u8,
    /// bInterfaceProtocol is 2: DFU mode (USB DFU 1.1, section 4.2.3). With another one it is run-time mode.
    pub is_upgrade: bool,
    /// Its functional descriptor; empty if it has none.
    pub functional: Vec<u8>,
}

impl Found {
    /// Whether a device at the same place, in the same mode, is this one again.
    pub fn is_again(&self, now: &Found) -> bool {
        let is_serial = self.serial.is_empty() || now.serial.is_empty() || self.serial == now.serial;
        (self.ids.vendor, self.ids.product, self.interface, self.alternate)
            == (now.ids.vendor, now.ids.product, now.interface, now.alternate)
            && is_serial
    }
}

/// What came of a control transfer.
#[derive(Clone, Copy, Debug, PartialEq, Eq)]
pub enum Outcome {
    /// It was made: so many bytes went out or came in.
    Made(usize),
    /// The device stalled it.
    Stalled,
    /// It may have been made or not.
    Lost,
    /// The device left.
    Gone,
}

/// What a device that left is found to be.
#[derive(Clone, Copy, Debug, PartialEq, Eq)]
pub enum Back {
    /// It is open again, and `found` says what it is now.
    Here,
    /// Nothing came to its place in time.
    Missing,
    /// There is something with more than one setting.
    Several,
}

/// A device that a session talks to.
pub trait Port {
    /// What it was when it was opened last.
    fn found(&self) -> &Found;

    /// Makes a control transfer of the class with the interface. If the first byte of the setup is A1h, what comes is put into `into`;
    /// else `body` goes out. Bytes 4 and 5 of the setup, wIndex, are 0, and the number of the interface takes their place.
    fn transfer(&mut self, setup: &[u8; 8], body: &[u8], into: &mut [u8]) -> Outcome;

    /// Resets the bus at the device, which is closed then: whether the reset was made. One that left before it comes back reset.
    fn reset(&mut self) -> bool;

    /// Waits so many milliseconds.
    fn wait(&mut self, ms: u32);

    /// Closes the device, waits for one at its place, and opens that.
    fn reopen(&mut self) -> Back;
}
