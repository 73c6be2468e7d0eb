//! What a device needs of its flash.

use crate::{asks, slots};
use core::future::Future;

/// How many bytes of flash are programmed at a time: the place and the length of a program are multiples of it.
///
/// ```
/// use fustrelan::dfu::Unit;
///
/// assert_eq!(Unit::of_writes(8), Some(Unit::Bytes16)); // two writes of an STM32G0
/// assert_eq!(Unit::Bytes16.bytes(), 16);
/// ```
#[derive(Clone, Copy, Debug, PartialEq, Eq)]
pub enum Unit {
    /// One byte, as of FRAM and MRAM.
    Bytes1,
    /// 16 bytes.
    Bytes16,
    /// 64 bytes.
    Bytes64,
    /// 256 bytes.
    Bytes256,
}

impl Unit {
    /// The smallest unit that is whole writes of so many bytes: of 8 it is `Bytes16`. None if there is none, as of 0, 24 or 512.
    pub const fn of_writes(bytes: usize) -> Option<Unit> {
        match bytes {
            1 => Some(Unit::Bytes1),
            2 | 4 | 8 | 16 => Some(Unit::Bytes16),
            32 | 64 => Some(Unit::Bytes64),
            128 | 256 => Some(Unit::Bytes256),
            _ => None,
        }
    }

    /// How many bytes it has: 1, 16, 64 or 256.
    pub const fn bytes(self) -> u32 {
        match self {
            Unit::Bytes1 => 1,
            Unit::Bytes16 => 16,
            Unit::Bytes64 => 64,
            Unit::Bytes256 => 256,
        }
    }

    pub(crate) fn of_slots(self) -> slots::Unit {
        match self {
            Unit::Bytes1 => slots::Unit::Byte,
            Unit::Bytes16 => slots::Unit::U16,
            Unit::Bytes64 => slots::Unit::U64,
            Unit::Bytes256 => slots::Unit::U256,
        }
    }
}

/// Flash for two slots, which is read where it is mapped, and the sizes in which it is written.
///
/// It reads the same each time until the next operation on it, also where one was broken off, and nothing else writes it. Whoever makes
/// `bytes` of a place in the memory of a chip does so in `unsafe` code of their own: anew for each call, because no slice may live while
/// the flash is written, and with no byte of an older one in a cache.
pub trait ReadFlash {
    /// Why an operation failed.
    type Error;

    /// How many bytes are programmed at a time. It is a part of how the slots are laid out: with another one no image is found.
    const UNIT: Unit;

    /// How many bytes are erased at a time: a multiple of 256 up to 262,144; or 0, and bytes are written over in place. It is a part of
    /// how the slots are laid out too.
    const SECTOR: u32;

    /// Both slots, as they read now: always so many bytes, an even number below 2^32.
    fn bytes(&self) -> &[u8];
}

/// Flash that is written within a call.
///
/// An operation changes no byte outside its range, not even one that a loss of power breaks off. The device reads each back.
pub trait Flash: ReadFlash {
    /// Makes FFh of the [`ReadFlash::SECTOR`] bytes from `at` on, where a sector begins.
    fn erase(&mut self, at: u32) -> Result<(), Self::Error>;

    /// Puts 1 to 256 bytes at `at`. Both are whole units. If there are sectors, FFh is there, and nothing was programmed there since its
    /// sector was erased.
    fn program(&mut self, at: u32, bytes: &[u8]) -> Result<(), Self::Error>;
}

/// Flash that is awaited while it is written. Its operations are those of [`Flash`].
pub trait AsyncFlash: ReadFlash {
    /// As [`Flash::erase`].
    fn erase(&mut self, at: u32) -> impl Future<Output = Result<(), Self::Error>>;

    /// As [`Flash::program`].
    fn program(&mut self, at: u32, bytes: &[u8]) -> impl Future<Output = Result<(), Self::Error>>;
}

impl<F: ReadFlash> ReadFlash for &mut F {
    type Error = F::Error;
    const UNIT: Unit = F::UNIT;
    const SECTOR: u32 = F::SECTOR;

    fn bytes(&self) -> &[u8] {
        (**self).bytes()
    }
}

impl<F: Flash> Flash for &mut F {
    fn erase(&mut self, at: u32) -> Result<(), Self::Error> {
        (**self).erase(at)
    }

    fn program(&mut self, at: u32, bytes: &[u8]) -> Result<(), Self::Error> {
        (**self).program(at, bytes)
    }
}

/// An operation on the flash that is due: see [`Dfu::pending`](crate::dfu::Dfu::pending).
#[derive(Clone, Copy, Debug, PartialEq, Eq)]
pub enum Operation<'b> {
    /// The sector that begins there is to be erased, as [`Flash::erase`].
    Erase {
        /// Where it begins.
        at: u32,
        /// How many bytes it has.
        len: u32,
    },
    /// Bytes are to be programmed there, as [`Flash::program`].
    Program {
        /// Where the first of them belongs.
        at: u32,
        /// The bytes, 1 to 256.
        bytes: &'b [u8],
    },
}

impl<'b> Operation<'b> {
    /// The operation that a device or a format asks for, with the bytes that it gave.
    pub(crate) fn of_asked(asked: asks::FlashOp, bytes: &'b [u8; 256]) -> Operation<'b> {
        // (Flash of 2^32 bytes or more is refused, so that its places have 32 bits.)
        let at = asked.at as u32;
        if asked.erases { Operation::Erase { at, len: asked.len as u32 } } else { Operation::Program { at, bytes: &bytes[..asked.len] } }
    }

    /// Has flash carry it out.
    pub(crate) fn carry_out<F: Flash>(self, flash: &mut F) -> Result<(), F::Error> {
        match self {
            Operation::Erase { at, .. } => flash.erase(at),
            Operation::Program { at, bytes } => flash.program(at, bytes),
        }
    }

    /// Awaits flash that carries it out.
    pub(crate) async fn awaited<F: AsyncFlash>(self, flash: &mut F) -> Result<(), F::Error> {
        match self {
            Operation::Erase { at, .. } => flash.erase(at).await,
            Operation::Program { at, bytes } => flash.program(at, bytes).await,
        }
    }
}

/// The sectors of flash.
pub(crate) fn sector_of<F: ReadFlash>() -> asks::Sector {
    match asks::Sector::new(F::SECTOR) {
        Some(sector) => sector,
        // (`IS_ALLOWED` has no program compile that comes here.)
        None => asks::Sector::none(),
    }
}

/// Fails to compile if there are no such sectors.
pub(crate) struct Checked<F>(core::marker::PhantomData<F>);

impl<F: ReadFlash> Checked<F> {
    pub(crate) const IS_ALLOWED: () =
        assert!(F::SECTOR % 256 == 0 && F::SECTOR <= 262_144, "SECTOR is 0, or a multiple of 256 up to 262144");
}
