//! Formats whose writes the test carries out.

use super::chip::{Chip, Fate, Kind};
use fustrelan::asks::{FormatProgress, FormatStep, Formatting, Mapped, Sector};
use fustrelan::slots::{FormatFault, Slots, Unit, WriteFault};
use unit::Outcome;

const UNITS: [Unit; 4] = [Unit::Byte, Unit::U16, Unit::U64, Unit::U256];

/// Two sectors of each slot's data, or 4,096 bytes, and the gate and the header before them.
const SECTORS: [u32; 3] = [0, 1024, 4096];

/// A chip of this kind, which holds an image and other bytes, and may be written over in sectors that are erased.
fn used(unit: Unit, sector: u32) -> Outcome<Chip> {
    let gate = unit.size().max(16).max(sector);
    let data = (sector * 2).max(4096);
    let kind = Kind {
        unit,
        sector,
        len: 2 * (2 * gate + data),
        blocks: [0; 3],
        before: 0,
        pieces: 0,
    };
    Chip::shipped(kind)
}

/// What goes wrong at a piece: it fails, it is torn by a loss of power, or it isn't carried out.
#[derive(Clone, Copy, PartialEq, Eq)]
enum Trouble {
    None,
    Fails(u32),
    Cut(u32),
    Lies(u32),
}

/// Formats a chip, with this trouble: what came of it, and how many pieces were asked for.
fn format(chip: &mut Chip, image: &[u8], trouble: Trouble) -> (FormatProgress, u32) {
    let sector = Sector::new(chip.kind.sector).expect("no such sector");
    let mut formatting = match Formatting::start(&chip.flash, chip.kind.unit, sector, image) {
        Ok(formatting) => formatting,
        Err(fault) => panic!("no format: {fault}"),
    };
    for number in 0..300 {
        let mut bytes = [0; 256];
        let piece = formatting
            .next(&chip.flash, image, &mut bytes)
            .expect("nothing is asked for");
        let mut again = bytes;
        assert!(formatting.next(&chip.flash, image, &mut again).is_some());
        assert_eq!(again, bytes);
        let fate = if trouble == Trouble::Lies(number) {
            Fate::Lost
        } else if trouble == Trouble::Fails(number) || trouble == Trouble::Cut(number) {
            Fate::Torn
        } else {
            Fate::Done
        };
        chip.meet(piece, &bytes, fate);
        if trouble == Trouble::Cut(number) {
            return (FormatProgress::Asks, number);
        }
        match formatting.took(&chip.flash, image, trouble == Trouble::Fails(number)) {
            Some(FormatProgress::Asks) => {}
            Some(progress) => {
                assert!(formatting.next(&chip.flash, image, &mut bytes).is_none());
                assert!(formatting.took(&chip.flash, image, false).is_none());
                return (progress, number + 1);
            }
            None => panic!("no piece is taken"),
        }
    }
    panic!("it asks on")
}

/// Whether this image is the active one.
fn has(chip: &Chip, image: &[u8]) -> bool {
    let medium = Mapped::with_sectors(&chip.flash, chip.kind.unit, chip.kind.sector);
    let Ok(slots) = Slots::open(medium.expect("no medium")) else {
        return false;
    };
    let mut read = vec![0; slots.active_len() as usize];
    slots.read_active(0, &mut read);
    read == image
}

/// An image of so many bytes.
fn image_of(len: usize) -> Vec<u8> {
    (0..len).map(|i| (i % 251) as u8).collect()
}

#[test]
fn a_format_is_what_was_asked_for() -> Outcome {
    for unit in UNITS {
        for sector in SECTORS {
            for len in [0, 1, 300, 4096] {
                let image = image_of(len);
                let mut chip = used(unit, sector)?;
                let (progress, pieces) = format(&mut chip, &image, Trouble::None);
                assert_eq!(progress, FormatProgress::Formatted);
                assert!(has(&chip, &image));
                let programs = (len as u32).div_ceil(256);
                let erases = if sector == 0 {
                    0
                } else {
                    (len as u32).div_ceil(sector) + 2
                };
                assert_eq!(pieces, programs + erases + 4);
            }
        }
    }
    Ok(())
}

#[test]
fn each_trouble_of_a_format_is_told() -> Outcome {
    let image = image_of(600);
    for unit in [Unit::Byte, Unit::U256] {
        for sector in SECTORS {
            let mut first = used(unit, sector)?;
            let (_, pieces) = format(&mut first, &image, Trouble::None);
            for piece in 0..pieces {
                let mut chip = used(unit, sector)?;
                let (progress, _) = format(&mut chip, &image, Trouble::Fails(piece));
                assert_eq!(progress, FormatProgress::Broken(WriteFault::Failed));
                let (progress, _) = format(&mut chip, &image, Trouble::None);
                assert_eq!(progress, FormatProgress::Formatted);
                let mut chip = used(unit, sector)?;
                // If it leaves the bytes that were there anyway, it is no lie.
                let (progress, _) = format(&mut chip, &image, Trouble::Lies(piece));
                if progress == FormatProgress::Formatted {
                    assert!(has(&chip, &image));
                } else {
                    assert_eq!(progress, FormatProgress::Broken(WriteFault::NotVerified));
                }
                let mut chip = used(unit, sector)?;
                let (progress, _) = format(&mut chip, &image, Trouble::Cut(piece));
                assert_eq!(progress, FormatProgress::Asks);
                let (progress, _) = format(&mut chip, &image, Trouble::None);
                assert_eq!(progress, FormatProgress::Formatted);
                assert!(has(&chip, &image));
            }
        }
    }
    Ok(())
}

#[test]
fn what_cannot_be_formatted_is_told() -> Outcome {
    let chip = used(Unit::Byte, 0)?;
    let image = image_of(4097);
    let none = Sector::none();
    let start = Formatting::start(&chip.flash, Unit::Byte, none, &image);
    assert_eq!(start, Err(FormatFault::TooLarge));
    let start = Formatting::start(&chip.flash[1..], Unit::Byte, none, &image);
    assert_eq!(start, Err(FormatFault::WrongSize));
    Ok(())
}

#[test]
fn a_garbled_format_stays_within_its_flash() -> Outcome {
    let chip = used(Unit::U16, 1024)?;
    let image = image_of(2000);
    let sector = Sector::new(1024).expect("no such sector");
    let size = chip.flash.len() as u64;
    for phase in [
        FormatStep::CloseSecond,
        FormatStep::CloseFirst,
        FormatStep::Image { from: 0 },
        FormatStep::Image { from: 777 },
        FormatStep::Image { from: 4096 },
        FormatStep::Image { from: u32::MAX },
        FormatStep::Header,
        FormatStep::Gate,
        FormatStep::Ended,
    ] {
        for done in [0, 1, 255, 256, 1023, 1024, 1040, 5000, u32::MAX] {
            let mut formatting = Formatting {
                unit: Unit::U16,
                sector,
                register: 7,
                phase,
                done,
            };
            if let Some(piece) = formatting.next(&chip.flash, &image, &mut [0; 256]) {
                assert!(piece.at + piece.len as u64 <= size);
                assert!(!piece.erases || piece.len == 1024 && piece.at % 1024 == 0);
            }
            let _ = formatting.took(&chip.flash, &image, false);
        }
    }
    Ok(())
}
