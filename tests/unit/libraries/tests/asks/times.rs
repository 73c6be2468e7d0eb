//! What bwPollTimeout says of each block and of the image, and what the part takes.

use super::dnload;
use fustrelan::asks::{Asking, FlashOp, Reply, Sector};
use fustrelan::device::{Config, Pace};
use fustrelan::memory::Global;
use fustrelan::slots::{Medium, SimMedium, Slots, Unit};
use fustrelan::wire::Functional;
use unit::Outcome;
use unit::requests::{GET_STATUS, IDS};

/// A part: its unit and sector, the bytes of the image, and the typical milliseconds of an erase and of a program of 256 bytes.
struct Part {
    unit: Unit,
    sector: u32,
    image: u32,
    erase_ms: u16,
    program_ms: f64,
}

/// An STM32F1, an nRF52, flash behind QSPI and an STM32F4.
#[rustfmt::skip]
static PARTS: [Part; 4] = [
    Part { unit: Unit::U16, sector: 2048, image: 65_536, erase_ms: 20, program_ms: 7.0 },
    Part { unit: Unit::U16, sector: 4096, image: 131_072, erase_ms: 85, program_ms: 2.6 },
    Part { unit: Unit::U256, sector: 4096, image: 524_288, erase_ms: 45, program_ms: 0.7 },
    Part { unit: Unit::U16, sector: 131_072, image: 131_072, erase_ms: 1000, program_ms: 1.0 },
];

/// A device over flash that counts its erases, and the bytes that are programmed.
struct Board {
    device: Asking,
    flash: Vec<u8>,
    block: Vec<u8>,
    held: [u8; 256],
    erases: u32,
    programmed: u64,
    told: Vec<u32>,
}

impl Board {
    fn of(part: &Part, transfer: u16, times: (u32, u32), pace: Pace) -> Outcome<Board> {
        let functional = Functional {
            can_download: true,
            can_upload: true,
            tolerant: true,
            will_detach: false,
            detach_ms: 255,
            transfer,
            version: 0x0110,
        };
        let room = 2 * part.sector.max(16).max(part.unit.size()) + part.image;
        let blank = SimMedium::with_sectors(Global, 2 * room, part.unit, part.sector)?;
        let slots = Slots::format(blank, &[0]).map_err(|(fault, _)| fault)?;
        let mut flash = vec![0; 2 * room as usize];
        slots.medium().read(0, &mut flash);
        let config = Config::new(IDS, functional, 1, times.0, times.1)?.with_pace(pace);
        let sector = Sector::new(part.sector).ok_or("no such sectors")?;
        let device = Asking::begin(config, part.unit, sector, &flash).ok_or("no image")?;
        let block = vec![0; usize::from(transfer)];
        Ok(Board {
            device,
            flash,
            block,
            held: [0; 256],
            erases: 0,
            programmed: 0,
            told: Vec::new(),
        })
    }

    /// Carries out what is asked for.
    fn work(&mut self, first: Reply, out: &mut [u8]) {
        let mut reply = first;
        while reply == Reply::Asks {
            let mut bytes = [0; 256];
            let asked = self
                .device
                .next(&self.block, &self.held, &self.flash, &mut bytes);
            let FlashOp { erases, at, len } = asked.expect("an operation is due");
            let place = &mut self.flash[at as usize..at as usize + len];
            if erases {
                place.fill(0xff);
                self.erases += 1;
            } else {
                place.copy_from_slice(&bytes[..len]);
                self.programmed += len as u64;
            }
            reply = self
                .device
                .took(&self.block, &mut self.held, &self.flash, false, out)
                .expect("it is taken");
        }
    }

    /// A request, with what it asks for; then the time passes that its status says, and no millisecond less changes the state.
    fn request(&mut self, setup: &[u8; 8], body: &[u8]) {
        let mut out = vec![0; self.block.len().max(6)];
        let reply = self
            .device
            .handle(
                &mut self.block,
                &mut self.held,
                &self.flash,
                setup,
                body,
                &mut out,
            )
            .expect("it is served");
        self.work(reply, &mut out);
        if !matches!(out[4], 4 | 7) || setup != &GET_STATUS {
            return;
        }
        let told = u32::from_le_bytes([out[1], out[2], out[3], 0]);
        self.told.push(told);
        assert_eq!(self.device.due(), Some(told.max(1)));
        let busy = self.device.state();
        let early = self
            .device
            .elapse(&mut self.block, &mut self.held, &self.flash, told - 1)
            .expect("it is served");
        assert!(early != Reply::Asks && self.device.state() == busy);
        let reply = self
            .device
            .elapse(&mut self.block, &mut self.held, &self.flash, 1)
            .expect("it is served");
        self.work(reply, &mut [0; 6]);
        // (A block that makes no unit whole asks for nothing.)
        assert!(self.device.state() != busy);
    }

    /// A download of so many bytes.
    fn download(&mut self, image: u32) {
        let transfer = self.block.len() as u32;
        let mut number = 0u16;
        for at in (0..image).step_by(transfer as usize) {
            let len = transfer.min(image - at) as u16;
            let mut setup = dnload(0, len);
            setup[2..4].copy_from_slice(&number.to_le_bytes());
            self.request(&setup, &vec![at as u8 ^ 0x35; usize::from(len)]);
            self.request(&GET_STATUS, &[]);
            self.request(&GET_STATUS, &[]);
            number += 1;
        }
        self.request(&dnload(number as u8, 0), &[]);
        self.request(&GET_STATUS, &[]);
        self.request(&GET_STATUS, &[]);
    }
}

#[test]
fn what_is_told_is_what_the_part_takes() -> Outcome {
    for part in &PARTS {
        for transfer in [64, 1024, 1500, 4096] {
            let pace = Pace {
                erase_ms: part.erase_ms,
                program_ms: part.program_ms.ceil() as u16,
                unit: part.unit,
                sector: part.sector,
            };
            let mut board = Board::of(part, transfer, (1, 1), pace)?;
            board.download(part.image);
            let told: u32 = board.told.iter().sum();
            let takes = f64::from(board.erases) * f64::from(part.erase_ms)
                + board.programmed as f64 / 256.0 * part.program_ms;
            println!(
                "image {} by {transfer}: told {} ms, takes {takes:.0} ms",
                part.image, told
            );
            assert!(f64::from(told) >= takes, "too little: {told} for {takes}");
            let blocks = part.image.div_ceil(u32::from(transfer));
            // A millisecond for each block comes from busy_ms, and one from rounding.
            assert!(
                f64::from(told) <= 1.5 * takes + f64::from(2 * blocks),
                "too much: {told} for {takes}"
            );
            if transfer >= 1024 {
                assert!(
                    f64::from(told) <= 1.5 * takes,
                    "too much: {told} for {takes}"
                );
            }
        }
    }
    Ok(())
}

#[test]
fn each_block_has_its_own_time() -> Outcome {
    let part = &PARTS[3];
    let pace = Pace {
        erase_ms: 1000,
        program_ms: 1,
        unit: part.unit,
        sector: part.sector,
    };
    let mut board = Board::of(part, 1024, (5, 7), pace)?;
    board.download(4 * 1024 + 8);
    // The gate and the first sector; four programs of 256 bytes a block; 8 bytes that are held back; and they, the header and the gate.
    assert_eq!(board.told, [2010, 9, 9, 9, 5, 2010]);
    Ok(())
}

#[test]
fn without_a_pace_each_block_has_the_same_time() -> Outcome {
    for part in &PARTS {
        let mut board = Board::of(part, 4096, (5, 10), Pace::none())?;
        board.download(part.image);
        let (image, blocks) = board.told.split_last().ok_or("nothing is told")?;
        assert_eq!(*image, 10);
        assert!(blocks.iter().all(|told| *told == 5));
    }
    Ok(())
}
