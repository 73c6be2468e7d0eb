//! Two areas, row by row: slots of a gate, a header and three sectors of 512 bytes each, and images of which byte i is i modulo 251.

use fustrelan::asks::Mapped;
use fustrelan::home::{CopyRefusal, Due, Progress, is_home, next, took};
use fustrelan::memory::Global;
use fustrelan::slots::{SimMedium, Slots, Unit};

const SECTOR: u32 = 512;
const HALF: u32 = 5 * SECTOR;

/// The flash of a board whose first slot has an image of `old` bytes, and whose second one then got one of `new`.
fn flash(old: usize, new: usize) -> Vec<u8> {
    let bytes: Vec<u8> = (0..1536).map(|i| (i % 251) as u8).collect();
    let medium = SimMedium::with_sectors(Global, 2 * HALF, Unit::U16, SECTOR).unwrap();
    let Ok(mut slots) = Slots::format(medium, &bytes[..old]) else {
        panic!("no format")
    };
    slots.begin().unwrap();
    slots.put(0, &bytes[..new]).unwrap();
    slots.commit(new as u32).unwrap();
    read(&slots)
}

fn read(slots: &Slots<SimMedium>) -> Vec<u8> {
    use fustrelan::slots::Medium;
    let mut bytes = vec![0; 2 * HALF as usize];
    slots.medium().read(0, &mut bytes);
    bytes
}

/// A board: its flash, and how far the copy is.
struct Board {
    flash: Vec<u8>,
    progress: Progress,
}

const BEGINS: Progress = Progress {
    last: None,
    count: 0,
};

impl Board {
    fn away(new: usize) -> Board {
        Board {
            flash: flash(100, new),
            progress: BEGINS,
        }
    }

    fn due(&self) -> (Due, [u8; 256]) {
        let mut bytes = [7; 256];
        let medium = Mapped::with_sectors(&self.flash, Unit::U16, SECTOR).unwrap();
        (next(&medium, &self.flash, self.progress, &mut bytes), bytes)
    }

    /// These are due, one after the other, and the flash carries them out.
    fn does(&mut self, dues: &[Due]) {
        for wanted in dues {
            let (due, bytes) = self.due();
            assert_eq!(due, *wanted, "after {:?}", self.progress);
            match due {
                Due::Erase { at } => self.flash[at as usize..][..SECTOR as usize].fill(0xff),
                Due::Program { at, len } => self.flash[at as usize..][..len as usize]
                    .copy_from_slice(&bytes[..len as usize]),
                _ => continue,
            }
            self.progress = took(&self.flash, SECTOR, due, &bytes, false, self.progress);
        }
    }

    fn is_home(&self) -> Option<bool> {
        is_home(&Mapped::with_sectors(&self.flash, Unit::U16, SECTOR).unwrap())
    }
}

const CLOSES: Due = Due::Erase { at: 0 };
const OPENS: [Due; 4] = [
    Due::Erase { at: 512 },
    Due::Program { at: 512, len: 16 },
    CLOSES,
    Due::Program { at: 0, len: 16 },
];

fn program(at: u32) -> Due {
    Due::Program { at, len: 256 }
}

#[test]
fn from_the_second_slot_to_the_first() {
    let mut board = Board::away(600);
    assert_eq!(board.is_home(), Some(false));
    board.does(&[
        CLOSES,
        Due::Erase { at: 1024 },
        program(1024),
        program(1280),
        Due::Erase { at: 1536 },
        program(1536),
    ]);
    board.does(&OPENS);
    board.does(&[Due::Home]);
    assert_eq!((board.is_home(), board.progress.count), (Some(true), 10));
    let second = HALF as usize + 512;
    assert_eq!((board.flash[second], board.flash[512]), (1, 2));
    assert_eq!(board.flash[513..528], board.flash[second + 1..second + 16]);
    assert_eq!(board.flash[1024..1624], board.flash[second + 512..][..600]);
    assert!(board.flash[1624..1792].iter().all(|byte| *byte == 0xff));
}

#[test]
fn only_the_sector_that_differs() {
    let mut board = Board::away(600);
    board.does(&[
        CLOSES,
        Due::Erase { at: 1024 },
        program(1024),
        program(1280),
    ]);
    board.progress = BEGINS; // (a loss of power)
    board.does(&[Due::Erase { at: 1536 }, program(1536)]);
    board.does(&OPENS);
    board.flash[1700] = 0; // (behind the image)
    board.does(&[Due::Home]);
    board.flash[1600] ^= 1;
    board.progress = BEGINS;
    board.does(&[
        CLOSES,
        Due::Erase { at: 1536 },
        program(1536),
        CLOSES,
        OPENS[3],
        Due::Home,
    ]);
}

#[test]
fn a_gate_is_erased_since_the_power_came() {
    let mut board = Board::away(600);
    board.does(&[CLOSES]);
    board.progress = BEGINS;
    board.does(&[Due::Erase { at: 1024 }, program(1024), program(1280)]);
    board.does(&[Due::Erase { at: 1536 }, program(1536), OPENS[0]]);
    board.progress.last = None; // (another loss of power)
    board.does(&OPENS[..3]);
    board.progress.last = None;
    board.does(&[CLOSES, OPENS[3], Due::Home]);
}

#[test]
fn an_image_of_no_bytes() {
    let mut board = Board::away(0);
    board.does(&[CLOSES]);
    board.does(&OPENS);
    board.does(&[Due::Home]);
}

#[test]
fn what_is_noted() {
    let bytes = [9; 256];
    let noted = |due, failed, flash: &[u8]| took(flash, SECTOR, due, &bytes, failed, BEGINS).last;
    let erase = Due::Erase { at: 512 };
    let program = Due::Program { at: 512, len: 256 };
    assert_eq!(noted(erase, false, &[0xff; 1024]), Some(512));
    assert_eq!(noted(erase, true, &[0xff; 1024]), None);
    assert_eq!(noted(erase, false, &[0xff; 1023]), None);
    assert_eq!(noted(program, false, &[9; 1024]), Some(512));
    assert_eq!(noted(program, false, &[9; 767]), None);
    assert_eq!(noted(program, false, &[0xff; 1024]), None);
    assert_eq!(
        noted(Due::Program { at: 512, len: 257 }, false, &[9; 1024]),
        None
    );
    assert_eq!(
        noted(Due::Program { at: 512, len: 0 }, false, &[9; 1024]),
        None
    );
    assert_eq!(noted(Due::Home, false, &[0xff; 1024]), None);
    let last = Progress {
        last: None,
        count: u32::MAX,
    };
    assert_eq!(
        took(&[], SECTOR, Due::Home, &bytes, false, last).count,
        u32::MAX
    );
}

#[test]
fn what_is_refused() {
    let mut bytes = [7; 256];
    let board = Board::away(600);
    let in_place = Mapped::new(&board.flash, Unit::U16).unwrap();
    let refused = |refusal| Due::Refuse(refusal);
    assert_eq!(
        next(&in_place, &board.flash, BEGINS, &mut bytes),
        refused(CopyRefusal::NoSectors)
    );
    let short = &board.flash[..4608];
    let medium = Mapped::with_sectors(short, Unit::U16, SECTOR).unwrap();
    assert_eq!(
        next(&medium, short, BEGINS, &mut bytes),
        refused(CopyRefusal::NoImage)
    );
    let mut board = Board::away(600);
    board.progress.count = 5120 / 128;
    board.does(&[refused(CopyRefusal::NotWritten)]);
    board.progress.count -= 1;
    board.does(&[CLOSES, refused(CopyRefusal::NotWritten)]);
    board.progress.count = 1;
    board.flash[HALF as usize] = 0;
    board.does(&[refused(CopyRefusal::NoImage)]);
    assert_eq!(board.is_home(), None);
    assert_eq!(bytes, [7; 256]);
}
