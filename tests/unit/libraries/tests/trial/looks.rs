//! Looks: each image is read once, and a look that is handed on is taken only where the medium is still as it was.

use super::{FIRST, SECOND, booted, confirmed, ended, on_trial, settled, tried};
use fustrelan::boot::trial::{check_tries, look, look_again};
use fustrelan::memory::Global;
use fustrelan::slots::{Failed, Medium, SimMedium, Slots, Unit};
use std::cell::Cell;
use unit::Outcome;

/// A medium that counts the bytes which are read of its two images' 256 bytes each.
struct Counting {
    medium: SimMedium,
    of_images: Cell<usize>,
}

impl Medium for Counting {
    fn len(&self) -> u32 {
        self.medium.len()
    }

    fn unit(&self) -> Unit {
        self.medium.unit()
    }

    fn sector(&self) -> u32 {
        self.medium.sector()
    }

    fn read(&self, at: u32, out: &mut [u8]) {
        if at % SECOND >= 512 {
            self.of_images.set(self.of_images.get() + out.len());
        }
        self.medium.read(at, out);
    }

    fn write(&mut self, at: u32, bytes: &[u8]) -> Result<(), Failed> {
        self.medium.write(at, bytes)
    }

    fn erase(&mut self, at: u32) -> Result<(), Failed> {
        self.medium.erase(at)
    }
}

#[test]
fn a_look_reads_each_image_once_and_the_next_none() -> Outcome {
    let medium = SimMedium::with_sectors(Global, 1536, Unit::U16, 256)?;
    let mut medium = Slots::format(medium, &[7; 256])
        .map_err(|(fault, _)| fault)?
        .into_medium();
    confirmed(&mut medium, 512)?;
    let mut slots = Slots::open(medium).map_err(|(fault, _)| fault)?;
    slots.begin()?;
    slots.put(0, &[9; 256])?;
    slots.commit(256)?;
    let medium = Counting {
        medium: slots.into_medium(),
        of_images: Cell::new(0),
    };
    check_tries(&medium, 2)?;
    assert_eq!(look(&medium, 2)?, on_trial(0));
    assert_eq!(medium.of_images.replace(0), 512);
    let again = look_again(&medium, 2, 1280, Some(512));
    assert_eq!(again, Some(on_trial(0)));
    assert_eq!(medium.of_images.get(), 0);
    Ok(())
}

#[test]
fn a_look_that_is_handed_on_is_no_older_than_the_medium() -> Outcome {
    let mut medium = tried()?;
    check_tries(&medium, 2)?;
    assert_eq!(booted(&mut medium)?, SECOND);
    assert_eq!(look_again(&medium, 2, 1280, Some(512)), Some(on_trial(1)));
    // One from before the download, one that says of no trial, and places at which no image begins.
    assert_eq!(look_again(&medium, 2, 512, None), None);
    assert_eq!(look_again(&medium, 2, 1280, None), None);
    assert_eq!(look_again(&medium, 2, 1281, Some(512)), None);
    assert_eq!(look_again(&medium, 2, 1280, Some(768)), None);
    let mut kept = tried()?;
    confirmed(&mut kept, 1280)?;
    let settled_there = Some(settled(SECOND, true));
    assert_eq!(look_again(&kept, 2, 1280, Some(512)), settled_there);
    assert_eq!(look_again(&kept, 2, 1280, None), settled_there);
    ended(&mut medium)?;
    assert_eq!(look_again(&medium, 2, 1280, Some(512)), None);
    let settled_here = Some(settled(FIRST, true));
    assert_eq!(look_again(&medium, 2, 512, None), settled_here);
    Ok(())
}
