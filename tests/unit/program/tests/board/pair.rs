//! A device that writes its medium itself, and a board: both get the same events, and show the same after each.

use super::link::Link;
use super::setup::board_of;
use dfu::sim::{Event, World};
use fustrelan::asks::Mapped;
use fustrelan::device::{Device, Objection};
use fustrelan::host::Report;
use fustrelan::memory::Global;
use fustrelan::slots::{Medium, SimMedium, Slots};

/// The active image.
fn image_of<M: Medium>(slots: &Slots<M>) -> Vec<u8> {
    let mut image = vec![0; slots.active_len() as usize];
    slots.read_active(0, &mut image);
    image
}

pub struct Pair<'f> {
    world: World<'f, SimMedium>,
    board: Link<'f>,
}

impl<'f> Pair<'f> {
    /// A device, and a board with the same bytes.
    pub fn new(device: Device<SimMedium>) -> Pair<'f> {
        let board = Link::new(board_of(&device));
        Pair {
            world: World::new(Global, device),
            board,
        }
    }

    /// Both get an event: they answer the same, and are in the same state with the same image.
    pub fn step(&mut self, event: Event<'f, '_>) -> Option<Report> {
        let answer = self.world.step(event);
        assert_eq!(self.board.step(event), answer);
        let (device, chip) = (self.world.device(), &self.board.chip);
        assert_eq!(self.board.is_live(), self.world.is_live());
        assert_eq!(chip.asking.state(), device.state());
        assert_eq!(chip.asking.code(), device.code());
        assert!(self.board.uploaded() == self.world.uploaded());
        let flash = Mapped::with_sectors(&chip.flash, chip.asking.unit, chip.asking.sector.size());
        let Ok(found) = Slots::open(flash.expect("flash")) else {
            panic!("no image");
        };
        assert!(image_of(&found) == image_of(device.slots()));
        answer.unwrap_or(None)
    }

    /// The same event on a device whose program takes only images that begin with `check`.
    pub fn step_checked(&mut self, event: Event<'f, '_>, check: &[u8]) -> Option<Report> {
        match event {
            Event::Go(fate) if !self.is_accepted(check) => self.step(Event::GoRefused {
                fate,
                objection: Objection::File,
            }),
            _ => self.step(event),
        }
    }

    /// Whether the image that was taken begins with these bytes, or none was.
    fn is_accepted(&self, check: &[u8]) -> bool {
        let device = self.world.device();
        let Some(taken) = device.candidate() else {
            return true;
        };
        let slots = device.slots();
        let mut image = vec![0; taken.stored as usize];
        slots.medium().read(taken.at, &mut image);
        image.extend_from_slice(slots.held());
        image.starts_with(check)
    }
}
