//! How the writes of one call of a board are harmed.

use dfu::sim::Fate;
use fustrelan::asks::FlashOp;

/// What becomes of a write.
#[derive(Clone, Copy, PartialEq, Eq)]
pub enum Kind {
    Works,
    CutsPower,
    Fails,
    Lies,
}

/// The most bytes of one program.
const MOST_PROGRAMMED: usize = 256;

/// One write of a call is harmed. A board hands out a write in pieces, all but the last of 256 bytes, and an erase in one; each piece of
/// the harmed write takes its part of `tear`.
pub struct Harm<'t> {
    kind: Kind,
    tear: &'t [u8],
    /// How many writes are still to work before the harmed one; none if that came.
    left: Option<u32>,
    /// Whether the first program is a write by itself though the next one goes on after it: that of bytes held back.
    first_alone: bool,
    is_in_harmed: bool,
    /// The address at which the write of the last piece goes on.
    goes_on: Option<u64>,
    torn: usize,
}

impl<'t> Harm<'t> {
    /// What a fate does to the writes of a call, before which bytes are held back, or aren't.
    pub fn of(fate: Fate<'t>, holds_back: bool) -> Harm<'t> {
        let (kind, left, tear): (Kind, Option<u32>, &[u8]) = match fate {
            Fate::Cut { writes, tear } => (Kind::CutsPower, Some(writes), tear),
            Fate::Fail { writes, tear } => (Kind::Fails, Some(writes), tear),
            Fate::Lie { writes, tear } => (Kind::Lies, Some(writes), tear),
            _ => (Kind::Works, None, &[]),
        };
        Harm {
            kind,
            tear,
            left,
            first_alone: holds_back,
            is_in_harmed: false,
            goes_on: None,
            torn: 0,
        }
    }

    /// What becomes of the next piece.
    fn meet(&mut self, piece: FlashOp) -> Kind {
        if piece.erases || self.goes_on != Some(piece.at) {
            self.torn = 0;
            self.is_in_harmed = self.left == Some(0);
            self.left = self.left.and_then(|writes| writes.checked_sub(1));
        }
        let ends = piece.erases || piece.len < MOST_PROGRAMMED || self.first_alone;
        self.goes_on = if ends {
            None
        } else {
            Some(piece.at + MOST_PROGRAMMED as u64)
        };
        self.first_alone = self.first_alone && piece.erases;
        if self.is_in_harmed {
            self.kind
        } else {
            Kind::Works
        }
    }

    /// Carries out a piece with these bytes on the flash, or what is left of it.
    pub fn carry_out(&mut self, flash: &mut [u8], piece: FlashOp, bytes: &[u8]) -> Kind {
        let kind = self.meet(piece);
        let place = &mut flash[piece.at as usize..][..piece.len];
        if kind != Kind::Works {
            let part = &self.tear[self.torn.min(self.tear.len())..];
            let count = part.len().min(piece.len);
            place[..count].copy_from_slice(&part[..count]);
            self.torn += piece.len;
        } else if piece.erases {
            place.fill(0xff);
        } else {
            place.copy_from_slice(&bytes[..piece.len]);
        }
        kind
    }
}
