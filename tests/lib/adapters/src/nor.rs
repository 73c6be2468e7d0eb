//! A NOR flash in memory. It refuses what a part would: operations that are not whole units or sectors, and bytes that are programmed twice
//! between two erases. It can fail at one operation, lie at one, or lose power at one, which is made in part then.
use embedded_storage::nor_flash::{ErrorType, NorFlash, NorFlashError, NorFlashErrorKind, ReadNorFlash};
use fustrelan::dfu::{AsyncFlash, Flash, ReadFlash, Unit};
use std::future::Future;
use std::pin::Pin;
use std::task::{Context, Poll};

pub const SECTOR: usize = 1024;
pub const WRITE: usize = 8;
/// Two slots of a gate, a header, and 8 KiB.
pub const SIZE: usize = 2 * (2 * SECTOR + 8192);

#[derive(Debug, Clone, Copy, PartialEq, Eq)]
pub enum PartError {
    /// A mistake of whoever writes: the part is never asked for this.
    Misuse(&'static str),
    /// It was set to fail.
    Failed,
    /// The power is gone.
    NoPower,
}

impl NorFlashError for PartError {
    fn kind(&self) -> NorFlashErrorKind {
        match self {
            PartError::Misuse(_) => NorFlashErrorKind::NotAligned,
            _ => NorFlashErrorKind::Other,
        }
    }
}

/// What happens at an operation, which is counted from 0.
#[derive(Debug, Clone, Copy, PartialEq, Eq, Default)]
pub enum Happens {
    #[default]
    Nothing,
    /// It is refused, and changes nothing.
    Fails(usize),
    /// It changes half of its bytes, and says that it is done.
    Lies(usize),
    /// It changes half of its bytes, and no later operation changes one.
    PowerGoes(usize),
}

/// What an operation does by that.
enum Does {
    All,
    Half(Result<(), PartError>),
    Nothing(PartError),
}

#[derive(Clone)]
pub struct Part {
    pub bytes: Vec<u8>,
    is_programmed: Vec<bool>,
    /// Operations so far.
    pub made: usize,
    pub happens: Happens,
    /// The first mistake of whoever writes.
    pub misuse: Option<&'static str>,
}

impl Default for Part {
    fn default() -> Part {
        Part { bytes: vec![0xff; SIZE], is_programmed: vec![false; SIZE], made: 0, happens: Happens::Nothing, misuse: None }
    }
}

impl Part {
    /// A new part, to which this is to happen.
    pub fn that(happens: Happens) -> Part {
        Part { happens, ..Part::default() }
    }

    /// The part gets power, with nothing that is to happen.
    pub fn powered(mut self) -> Part {
        (self.made, self.happens) = (0, Happens::Nothing);
        self
    }

    fn mistaken(&mut self, what: &'static str) -> Result<(), PartError> {
        self.misuse.get_or_insert(what);
        Err(PartError::Misuse(what))
    }

    fn does(&mut self) -> Does {
        let number = self.made;
        self.made += 1;
        match self.happens {
            Happens::Fails(at) if at == number => Does::Nothing(PartError::Failed),
            Happens::Lies(at) if at == number => Does::Half(Ok(())),
            Happens::PowerGoes(at) if at == number => Does::Half(Err(PartError::NoPower)),
            Happens::PowerGoes(at) if at < number => Does::Nothing(PartError::NoPower),
            _ => Does::All,
        }
    }

    // How many of so many bytes an operation changes.
    fn done(&mut self, len: usize) -> (usize, Result<(), PartError>) {
        match self.does() {
            Does::All => (len, Ok(())),
            Does::Half(said) => (len / 2, said),
            Does::Nothing(error) => (0, Err(error)),
        }
    }

    fn erase_range(&mut self, from: usize, to: usize) -> Result<(), PartError> {
        if from % SECTOR != 0 || to % SECTOR != 0 || from >= to || to > self.bytes.len() {
            return self.mistaken("an erase of no whole sectors");
        }
        let (count, said) = self.done(to - from);
        self.bytes[from..from + count].fill(0xff);
        self.is_programmed[from..from + count].fill(false);
        said
    }

    fn program_at(&mut self, at: usize, bytes: &[u8]) -> Result<(), PartError> {
        if at % WRITE != 0 || bytes.len() % WRITE != 0 || bytes.is_empty() || at + bytes.len() > self.bytes.len() {
            return self.mistaken("a program of no whole writes");
        }
        if self.is_programmed[at..][..bytes.len()].contains(&true) {
            return self.mistaken("a second program without an erase");
        }
        self.is_programmed[at..][..bytes.len()].fill(true);
        let (count, said) = self.done(bytes.len());
        self.bytes[at..][..count].copy_from_slice(&bytes[..count]);
        said
    }
}

impl ReadFlash for Part {
    type Error = PartError;
    const UNIT: Unit = Unit::Bytes16;
    const SECTOR: u32 = SECTOR as u32;

    fn bytes(&self) -> &[u8] {
        &self.bytes
    }
}

impl Flash for Part {
    fn erase(&mut self, at: u32) -> Result<(), PartError> {
        self.erase_range(at as usize, at as usize + SECTOR)
    }

    fn program(&mut self, at: u32, bytes: &[u8]) -> Result<(), PartError> {
        self.program_at(at as usize, bytes)
    }
}

/// The same part, that is awaited: each operation is made once it was polled twice.
#[derive(Clone, Default)]
pub struct SlowPart(pub Part);

impl ReadFlash for SlowPart {
    type Error = PartError;
    const UNIT: Unit = Unit::Bytes16;
    const SECTOR: u32 = SECTOR as u32;

    fn bytes(&self) -> &[u8] {
        &self.0.bytes
    }
}

impl AsyncFlash for SlowPart {
    async fn erase(&mut self, at: u32) -> Result<(), PartError> {
        Turn::default().await;
        Flash::erase(&mut self.0, at)
    }

    async fn program(&mut self, at: u32, bytes: &[u8]) -> Result<(), PartError> {
        Turn::default().await;
        Flash::program(&mut self.0, at, bytes)
    }
}

/// Pending once.
#[derive(Default)]
pub struct Turn(bool);

impl Future for Turn {
    type Output = ();

    fn poll(mut self: Pin<&mut Self>, context: &mut Context<'_>) -> Poll<()> {
        if std::mem::replace(&mut self.0, true) {
            return Poll::Ready(());
        }
        context.waker().wake_by_ref();
        Poll::Pending
    }
}

/// The part as a chip of embedded-storage.
#[derive(Clone, Default)]
pub struct Chip(pub Part);

impl ErrorType for Chip {
    type Error = PartError;
}

impl ReadNorFlash for Chip {
    const READ_SIZE: usize = 1;

    fn read(&mut self, offset: u32, bytes: &mut [u8]) -> Result<(), PartError> {
        bytes.copy_from_slice(&self.0.bytes[offset as usize..][..bytes.len()]);
        Ok(())
    }

    fn capacity(&self) -> usize {
        SIZE
    }
}

impl NorFlash for Chip {
    const WRITE_SIZE: usize = WRITE;
    const ERASE_SIZE: usize = SECTOR;

    fn erase(&mut self, from: u32, to: u32) -> Result<(), PartError> {
        self.0.erase_range(from as usize, to as usize)
    }

    fn write(&mut self, offset: u32, bytes: &[u8]) -> Result<(), PartError> {
        self.0.program_at(offset as usize, bytes)
    }
}

impl fustrelan_embedded_storage::Mapped for Chip {
    fn bytes(&self) -> &[u8] {
        &self.0.bytes
    }
}
