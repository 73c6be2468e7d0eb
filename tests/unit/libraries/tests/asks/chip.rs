//! Chips: flash that is written over in place, and NOR flash, in which a program only clears bits, and a byte is programmed
//! once between two erases.

use fustrelan::asks::{FlashOp, Mapped};
use fustrelan::memory::Global;
use fustrelan::slots::{Medium, SimMedium, Slots, Unit};
use unit::Outcome;

/// A kind of chip, the lengths of the blocks of a download (0 is no block), and how many pieces it asks for before the commit and in all.
#[derive(Clone, Copy)]
pub struct Kind {
    pub unit: Unit,
    pub sector: u32,
    pub len: u32,
    pub blocks: [u16; 3],
    pub before: u32,
    pub pieces: u32,
}

/// In place in units of 16; with sectors of 1,024 in units of 16, and of 4,096 in units of 256. The downloads begin with a
/// closed gate. The last one's first block is an erase and five programs, its second two programs, and its commit a program
/// of what was held back, and an erase and a program of the header and of the gate.
#[rustfmt::skip]
pub static KINDS: [Kind; 3] = [
    Kind { unit: Unit::U16, sector: 0, len: 192, blocks: [20, 20, 8], before: 3, pieces: 5 },
    Kind { unit: Unit::U16, sector: 1024, len: 8192, blocks: [1500, 500, 0], before: 11, pieces: 15 },
    Kind { unit: Unit::U256, sector: 4096, len: 24_576, blocks: [1500, 500, 0], before: 8, pieces: 13 },
];

/// A chip: its bytes, and of each whether it was programmed since its sector was erased.
pub struct Chip {
    pub kind: Kind,
    pub flash: Vec<u8>,
    programmed: Vec<bool>,
}

/// What becomes of a piece.
#[derive(Clone, Copy, PartialEq, Eq)]
pub enum Fate {
    /// It is carried out.
    Done,
    /// It is torn: its first byte is programmed, or the sector that it erases is left with A5h.
    Torn,
    /// It changes nothing, or only the first byte if that may be written over.
    Lost,
}

impl Chip {
    /// A chip with the image `00`, whose spare slot has 5Ah throughout, programmed.
    pub fn shipped(kind: Kind) -> Outcome<Chip> {
        let blank = SimMedium::with_sectors(Global, kind.len, kind.unit, kind.sector)?;
        let slots = Slots::format(blank, &[0]).map_err(|(fault, _)| fault)?;
        let mut flash = vec![0x5a; kind.len as usize];
        let half = flash.len() / 2;
        slots.medium().read(0, &mut flash[..half]);
        let programmed = vec![true; flash.len()];
        Ok(Chip {
            kind,
            flash,
            programmed,
        })
    }

    /// Where the header of the second slot is, or of the first one.
    pub fn header_at(&self, second: bool) -> usize {
        self.at(second) + self.gate()
    }

    /// Where the image of the second slot begins, or of the first one.
    pub fn image_at(&self, second: bool) -> usize {
        self.header_at(second) + self.gate()
    }

    /// Where the second slot begins, or the first one.
    pub fn at(&self, second: bool) -> usize {
        if second { self.flash.len() / 2 } else { 0 }
    }

    /// How many bytes the gate of a slot has for itself, and as many its header.
    fn gate(&self) -> usize {
        self.kind.unit.size().max(self.kind.sector).max(16) as usize
    }

    /// The header of the second slot, or of the first one.
    pub fn header(&self, second: bool) -> [u8; 16] {
        let at = self.header_at(second);
        std::array::from_fn(|i| self.flash[at + i])
    }

    /// Flips these bits of the byte at a place.
    pub fn turn(&mut self, at: usize, bits: u8) {
        self.flash[at] ^= bits;
    }

    /// Whether a piece lies in the second slot, or in the first one.
    pub fn is_in(&self, piece: FlashOp, second: bool) -> bool {
        let from = self.at(second) as u64;
        let to = from + self.at(true) as u64;
        from <= piece.at && piece.at + piece.len as u64 <= to
    }

    /// A piece, which programs these bytes, has this fate.
    pub fn meet(&mut self, piece: FlashOp, bytes: &[u8; 256], fate: Fate) {
        let place = piece.at as usize..piece.at as usize + piece.len;
        if piece.erases {
            if fate != Fate::Lost {
                let torn = fate == Fate::Torn;
                self.flash[place.clone()].fill(if torn { 0xa5 } else { 0xff });
                self.programmed[place].fill(torn);
            }
            return;
        }
        let in_place = self.kind.sector == 0;
        for (i, at) in place.enumerate() {
            assert!(in_place || !self.programmed[at], "programmed twice: {at}");
            self.programmed[at] = true;
            let byte = bytes[i];
            let cell = &mut self.flash[at];
            *cell = match fate {
                Fate::Lost if in_place && i == 0 => !byte,
                Fate::Lost => *cell,
                Fate::Torn if i > 0 => *cell,
                Fate::Torn | Fate::Done if in_place => byte,
                Fate::Torn | Fate::Done => *cell & byte,
            };
        }
    }

    /// The length of the active image and its first byte, as a device that gets power finds them.
    pub fn active(&self) -> (u32, u8) {
        let kind = self.kind;
        let medium = Mapped::with_sectors(&self.flash, kind.unit, kind.sector).expect("no medium");
        let slots = match Slots::open(medium) {
            Ok(slots) => slots,
            Err((fault, _)) => panic!("no image: {fault}"),
        };
        let mut first = [0];
        if slots.active_len() > 0 {
            slots.read_active(0, &mut first);
        }
        (slots.active_len(), first[0])
    }

    /// Whether the whole image of a download is active.
    pub fn is_new(&self) -> bool {
        let size = self.kind.blocks.iter().map(|len| u32::from(*len)).sum();
        self.active() == (size, 0x77)
    }
}
