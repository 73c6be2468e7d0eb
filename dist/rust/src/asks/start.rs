// Of crates/dfu_asks/src/start.rt, whose contracts are taken away.

//! Start of the writes of a row, and the test that flash is erased where it is programmed without a preceding erase.

use crate::asks::noted::View;
use crate::asks::sector::offset_in_sector;
use crate::asks::{Asking, Mapped, PendingWrites, Reply, Sector, SlotWrite};
use crate::device::DeviceState;
use crate::slots::{WriteFault, crc_of_flash, data_at, is_flash_erased, is_open};

// Returns the offset of the first sector that begins among the `len` bytes from `at` on, or their end if none begins there.
fn end_before_sector(size: u32, at: u64, len: u64) -> u64 {
    let behind = offset_in_sector(size, at);
    if behind == 0 {
        return at;
    }
    at + len.min(u64::from(size - behind))
}

// Returns true if the `len` bytes from `at` on are FFh, up to the next sector. True for flash without sectors, which is overwritten.
fn is_erased_to_sector(flash: &[u8], sector: Sector, at: u64, len: u64) -> bool {
    let size = sector.size();
    if size == 0 {
        return true;
    }
    let end = end_before_sector(size, at, len).min(flash.len() as u64);
    is_flash_erased(flash, at as usize, end as usize)
}

// Returns the CRC register over the `size` bytes of flash from `from` on, followed by `held`.
fn register_of(flash: &[u8], from: usize, size: usize, held: &[u8]) -> u32 {
    let mut crc = crc_of_flash(&flash[from..from + size]);
    crc.update_small(held);
    crc.value()
}

impl Asking {
    // Returns the job that commits all bytes put into the spare slot, including those held back.
    fn commit_job(&self, held: &[u8], medium: &Mapped<'_>, view: &View) -> SlotWrite {
        let from = data_at(medium, view.spare) as usize;
        let size = self.put_end as usize - self.held_len;
        SlotWrite::Commit {
            spare: view.spare,
            generation: self.noted.header[0].wrapping_add(1),
            register: register_of(medium.bytes, from, size, self.held_in(held)),
        }
    }

    // Returns the job of a block after `written` bytes, the number of bytes held back before the block, and the number of bytes put into
    // the spare slot before it. The first block of a download overwrites what an earlier download put into the slot.
    fn block_job(&self, written: u32, medium: &Mapped<'_>, view: &View) -> (SlotWrite, usize, u32) {
        if written == 0 {
            let job = SlotWrite::Block {
                spare: view.spare,
                close: is_open(medium, view.spare),
            };
            return (job, 0, 0);
        }
        let job = SlotWrite::Block {
            spare: view.spare,
            close: false,
        };
        (job, self.held_len, self.put_end)
    }

    // Returns the job of the due row, the number of bytes held back before the row, and the number of bytes put into the spare slot before
    // it.
    fn begin_job(&self, held: &[u8], medium: &Mapped<'_>, view: &View) -> (SlotWrite, usize, u32) {
        match self.mode {
            DeviceState::DownloadSync { written, .. } => self.block_job(written, medium, view),
            DeviceState::DownloadBusy { written, .. } => self.block_job(written, medium, view),
            _ => (
                self.commit_job(held, medium, view),
                self.held_len,
                self.put_end,
            ),
        }
    }

    // Returns true if the flash that the due row programs without a preceding erase is erased, or if `end` is 0.
    fn is_ahead(&self, end: u32, medium: &Mapped<'_>, view: &View) -> bool {
        if end == 0 {
            return true;
        }
        let at = data_at(medium, view.spare) + (self.put_end - self.held_len as u32);
        let len = self.held_len + self.block_len;
        is_erased_to_sector(medium.bytes, self.sector, u64::from(at), len as u64)
    }

    /// Begins the writes of the due row. If flash that the row programs without a preceding erase is not erased, for example because
    /// another program has written there, nothing is written, and the row ends with NotVerified.
    pub(crate) fn start(
        &mut self,
        asked: Option<u16>,
        block: &[u8],
        held: &mut [u8],
        medium: &Mapped<'_>,
        view: &View,
        out: &mut [u8],
    ) -> Reply {
        let (job, held_len, put_end) = self.begin_job(held, medium, view);
        if !self.is_ahead(put_end, medium, view) {
            let (answer, count) = self.fail(WriteFault::NotVerified, asked, medium.bytes, out);
            return Reply::Answered(answer, count);
        }
        self.held_len = held_len;
        self.put_end = put_end;
        let work = PendingWrites {
            job,
            asked,
            done: 0,
        };
        self.work = Some(work);
        self.advance(block, held, medium.bytes, out)
    }
}
