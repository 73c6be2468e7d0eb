//! What goes wrong at a piece of a download.

use super::chip::Fate;

/// What goes wrong at a piece.
#[derive(Clone, Copy, PartialEq, Eq)]
pub enum Trouble {
    /// Nothing.
    None,
    /// This piece fails, after this has become of it.
    Fails(u32, Fate),
    /// This piece is said to be carried out, and isn't.
    Lies(u32),
    /// The power goes in this piece, which is torn.
    Cut(u32),
}

impl Trouble {
    /// The same at this piece.
    pub fn at(self, piece: u32) -> Trouble {
        match self {
            Trouble::None => Trouble::None,
            Trouble::Fails(_, fate) => Trouble::Fails(piece, fate),
            Trouble::Lies(_) => Trouble::Lies(piece),
            Trouble::Cut(_) => Trouble::Cut(piece),
        }
    }

    /// What becomes of this piece.
    pub fn fate(self, number: u32) -> Fate {
        match self {
            Trouble::Fails(piece, fate) if piece == number => fate,
            Trouble::Lies(piece) if piece == number => Fate::Lost,
            Trouble::Cut(piece) if piece == number => Fate::Torn,
            _ => Fate::Done,
        }
    }

    /// Whether the driver says that this piece failed.
    pub fn fails(self, number: u32) -> bool {
        matches!(self, Trouble::Fails(piece, _) if piece == number)
    }
}
