//! Dice, the source of all that is random in these tests.

use dfu::sim::Fate;

/// A plain generator: the upper bits of x * 6364136223846793005 + 1442695040888963407.
pub struct Dice {
    pub state: u64,
}

impl Dice {
    /// A number under `sides`.
    pub fn roll(&mut self, sides: u32) -> u32 {
        self.state = self.state.wrapping_mul(6_364_136_223_846_793_005);
        self.state = self.state.wrapping_add(1_442_695_040_888_963_407);
        (self.state >> 33) as u32 % sides
    }

    /// One of eight fates, each with a chance of one in `sides`, and else a pass.
    pub fn fate<'t>(&mut self, sides: u32, writes: u32, tear: &'t [u8]) -> Fate<'t> {
        match self.roll(sides) {
            0 => Fate::LostOut,
            1 => Fate::LostBack,
            2 => Fate::Twice,
            3 => Fate::TwiceLostBack,
            4 => Fate::Slip(self.roll(40)),
            5 => Fate::Cut { writes, tear },
            6 => Fate::Fail { writes, tear },
            7 => Fate::Lie { writes, tear },
            _ => Fate::Pass,
        }
    }

    /// A random byte.
    pub fn byte(&mut self) -> u8 {
        self.roll(256) as u8
    }

    /// So many random bytes.
    pub fn bytes(&mut self, len: u32) -> Vec<u8> {
        (0..len).map(|_| self.byte()).collect()
    }

    /// One of these.
    pub fn one_of<T: Copy>(&mut self, these: &[T]) -> T {
        these[self.roll(these.len() as u32) as usize]
    }
}
