//! A device in this process, in place of one on a bus: the device of this repository over plain memory. A test says what happens to its
//! transfers.

use crate::port::{Back, Found, Outcome, Port};
use fustrelan::dfu::{Config, Dfu, Flash, Ids, ReadFlash, Reply, StartFault, State, Unit};

/// wTransferSize.
pub const BLOCK: usize = 256;
/// How many bytes an image may have.
pub const ROOM: usize = 65_536;
const SECTOR: usize = 4096;

/// Plain memory as flash.
pub struct Memory(Vec<u8>);

impl ReadFlash for Memory {
    type Error = ();
    const UNIT: Unit = Unit::Bytes16;
    const SECTOR: u32 = SECTOR as u32;

    fn bytes(&self) -> &[u8] {
        &self.0
    }
}

impl Flash for Memory {
    fn erase(&mut self, at: u32) -> Result<(), ()> {
        self.0[at as usize..][..SECTOR].fill(0xff);
        Ok(())
    }

    fn program(&mut self, at: u32, bytes: &[u8]) -> Result<(), ()> {
        self.0[at as usize..][..bytes.len()].copy_from_slice(bytes);
        Ok(())
    }
}

/// What happens to a transfer.
#[derive(Clone, Copy, Debug, PartialEq, Eq)]
pub enum Fate {
    /// It is lost on its way to the device.
    Lost,
    /// Its answer is lost.
    LostBack,
    /// The device loses its power before it, and leaves.
    Leaves,
}

/// What comes to the place of a device that left.
#[derive(Clone, Debug, PartialEq, Eq)]
pub enum Comes {
    /// Nothing.
    Nothing,
    /// Something with several settings.
    Several,
    /// This.
    Another(Found),
}

/// The device.
pub struct StandIn {
    device: Dfu<Memory, BLOCK>,
    config: Config,
    found: Found,
    /// The numbers of transfers, from 0, to which something happens.
    pub fates: Vec<(usize, Fate)>,
    /// What comes in place of it once it left.
    pub comes: Option<Comes>,
    /// The setups that came to it, or to what came in its place.
    pub asked: Vec<[u8; 8]>,
    transfers: usize,
}

impl StandIn {
    /// A device with this image of up to [`ROOM`] bytes, which runs its application.
    ///
    /// # Panics
    ///
    /// The image is larger.
    pub fn new(ids: Ids, image: &[u8]) -> StandIn {
        let mut flash = Memory(vec![0xff; 2 * (2 * SECTOR + ROOM)]);
        Dfu::<_, BLOCK>::format(&mut flash, image).expect("the image has room");
        StandIn::of_flash(Config::new(ids), ids, flash.0).expect("an image is active")
    }

    /// A device on what an earlier one left in its flash, which runs its application.
    ///
    /// # Errors
    ///
    /// As [`Dfu::power_on`].
    pub fn of_flash(config: Config, ids: Ids, flash: Vec<u8>) -> Result<StandIn, StartFault> {
        let device = Dfu::power_on(Memory(flash), config)?;
        let functional = device.functional().to_vec();
        let found = Found { ids, serial: "S1".to_string(), interface: 0, alternate: 0, is_upgrade: false, functional };
        Ok(StandIn { device, config, found, fates: Vec::new(), comes: None, asked: Vec::new(), transfers: 0 })
    }

    /// Its active image.
    pub fn image(&self) -> Option<&[u8]> {
        Dfu::<_, BLOCK>::image(self.device.flash())
    }

    /// Its flash.
    pub fn flash(&self) -> &[u8] {
        self.device.flash().bytes()
    }

    /// What it says of itself.
    pub fn found_mut(&mut self) -> &mut Found {
        &mut self.found
    }

    fn restart(&mut self) {
        let flash = self.device.flash().0.clone();
        if let Ok(device) = Dfu::power_on(Memory(flash), self.config) {
            self.device = device;
        }
    }

    fn answer(&mut self, setup: &[u8; 8], body: &[u8], into: &mut [u8]) -> Outcome {
        let mut out = [0; BLOCK];
        match self.device.handle(setup, body, &mut out) {
            Ok(Reply::Ack) => Outcome::Made(body.len()),
            Ok(Reply::Data(bytes)) => {
                into[..bytes.len()].copy_from_slice(bytes);
                Outcome::Made(bytes.len())
            }
            Ok(Reply::Stall) | Err(_) => Outcome::Stalled,
        }
    }
}

impl Port for StandIn {
    fn found(&self) -> &Found {
        &self.found
    }

    fn transfer(&mut self, setup: &[u8; 8], body: &[u8], into: &mut [u8]) -> Outcome {
        let number = self.transfers;
        self.transfers += 1;
        let fate = self.fates.iter().find(|(at, _)| *at == number).map(|(_, fate)| *fate);
        match fate {
            Some(Fate::Lost) => return Outcome::Lost,
            Some(Fate::Leaves) => {
                self.restart();
                return Outcome::Gone;
            }
            _ => {}
        }
        self.asked.push(*setup);
        let outcome = self.answer(setup, body, into);
        if fate == Some(Fate::LostBack) { Outcome::Lost } else { outcome }
    }

    fn reset(&mut self) -> bool {
        self.device.usb_reset().is_ok()
    }

    fn wait(&mut self, ms: u32) {
        let _ = self.device.elapse(ms);
    }

    fn reopen(&mut self) -> Back {
        match self.comes.take() {
            Some(Comes::Nothing) => return Back::Missing,
            Some(Comes::Several) => return Back::Several,
            Some(Comes::Another(found)) => self.found = found,
            None => self.found.is_upgrade = !matches!(self.device.state(), State::AppIdle | State::AppDetach),
        }
        Back::Here
    }
}
