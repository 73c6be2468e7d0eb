//! A run area in memory, and what is expected of it.

use fustrelan::boot::install::{Due, next, piece, took};

/// Its sectors.
pub const SECTOR: u32 = 512;

/// The most bytes of an image that a test takes.
const MOST: usize = 1025;

/// An image, its run area, and where the last operation went.
pub struct Board {
    /// The image is its first bytes, `len` of them.
    pub bytes: [u8; MOST],
    pub len: usize,
    pub run: [u8; 1024],
    pub last: Option<u32>,
}

/// The bytes that images have: byte i is i modulo 251.
pub fn bytes() -> [u8; MOST] {
    std::array::from_fn(|i| (i % 251) as u8)
}

impl Board {
    /// An image of so many bytes, and a run area that was never written.
    pub fn blank(len: usize) -> Board {
        Board {
            bytes: bytes(),
            len,
            run: [0xff; 1024],
            last: None,
        }
    }

    /// A run area that has the first bytes of its image of 600 bytes.
    pub fn with_first(count: usize) -> Board {
        let mut board = Board::blank(600);
        board.run[..count].copy_from_slice(&board.bytes[..count]);
        board
    }

    /// The image.
    pub fn image(&self) -> &[u8] {
        &self.bytes[..self.len]
    }

    /// This is due.
    pub fn expects(&self, due: Due) {
        let found = next(self.image(), &self.run, SECTOR, self.last);
        assert_eq!(found, due, "after {:?}", self.last);
    }

    /// A medium that works carries out what is due.
    pub fn write(&mut self, due: Due) {
        match due {
            Due::Erase(at) => {
                let at = at as usize;
                self.run[at..at + 512].fill(0xff);
            }
            Due::Program(at) => {
                let mut bytes = [0; 256];
                piece(self.image(), at, &mut bytes);
                let at = at as usize;
                self.run[at..at + 256].copy_from_slice(&bytes);
            }
            Due::Refuse(_) | Due::Start => {}
        }
    }

    /// It was carried out, or failed.
    pub fn took(&mut self, due: Due, failed: bool) {
        self.last = took(self.image(), &self.run, SECTOR, due, failed);
    }

    /// These are due one after the other, and each is carried out.
    pub fn does(&mut self, dues: &[Due]) {
        for due in dues {
            self.expects(*due);
            self.write(*due);
            self.took(*due, false);
        }
    }
}
