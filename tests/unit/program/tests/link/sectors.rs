//! A device on flash that is erased in sectors: each cut, failure and lie in a write or an erase of two downloads,
//! compared with a plain model of the bytes.

mod model;

use super::bench::{Setup, USUAL, W, go, offer, pass, play, world_on};
use super::plain::plain_image;
use dfu::link::{Fate, World};
use fustrelan::host::Report;
use fustrelan::memory::Global;
use fustrelan::slots::{Medium, SimMedium, Unit};
use fustrelan::wire::Code;
use model::{
    FIRST, FORMAT, Kind, SECOND, SECTOR, SIZE, after_steps, do_steps, fate_of, harm, image_of,
    tear_of,
};
use unit_program::Outcome;

/// One block for each file.
const FLASH: Setup = Setup {
    transfer: 64,
    capacity: 4096,
    ..USUAL
};

/// The bytes of the device's medium.
fn bytes_of(world: &World<'_, SimMedium>) -> Vec<u8> {
    let medium = world.device().slots().medium();
    let mut bytes = Vec::new();
    bytes.resize(medium.len() as usize, 0);
    medium.read(0, &mut bytes);
    bytes
}

/// The device has the bytes of the model and the image in them, which is the old one or the new one, whole.
fn is_as_the_model(world: &World<'_, SimMedium>, model: &[u8], image: &[u8]) {
    assert!(bytes_of(world).as_slice() == model);
    assert!(plain_image(model, SECTOR) == Some(image));
    let slots = world.device().slots();
    let mut found = [0; 16];
    let found = &mut found[..image.len().min(16)];
    assert_eq!(slots.active_len() as usize, found.len());
    slots.read_active(0, found);
    assert!(&*found == image);
}

/// A download that nothing harms.
fn installs(world: &mut World<'static, SimMedium>, file: &'static [u8]) {
    let installed = Some(Report::Installed);
    play(world, &[offer(file), pass(13)], installed);
}

/// A device with the factory image, or with that of the first download, and the model of its bytes.
fn begun(second: bool) -> Outcome<(World<'static, SimMedium>, Vec<u8>)> {
    let medium = SimMedium::with_sectors(Global, SIZE as u32, Unit::U256, SECTOR as u32)?;
    let mut world = world_on(medium, FLASH, &[0])?;
    let mut model = Vec::new();
    model.resize(SIZE, 0xff);
    do_steps(&mut model, &FORMAT);
    if second {
        installs(&mut world, &W);
        do_steps(&mut model, FIRST.commit);
    }
    let image = if second { FIRST.new } else { FIRST.old };
    is_as_the_model(&world, &model, image);
    Ok((world, model))
}

/// What follows a harmed action: the report of a spent restart, the error, or the report that the image is installed.
fn goes_on(world: &mut World<'static, SimMedium>, fate: Fate<'_>, found: Option<Code>) {
    match (fate, found) {
        (Fate::Cut { .. }, _) => play(world, &[go(fate)], Some(Report::RestartsSpent)),
        (_, Some(code)) => play(world, &[go(fate), pass(1)], Some(Report::Refused(code))),
        (_, None) => play(world, &[go(fate), pass(2)], Some(Report::Installed)),
    }
}

/// Harms a step of the commit of a download.
fn harms_commit(second: bool, (works, tear, kind): (u32, u32, Kind)) -> Outcome {
    let writes = works as usize;
    let download = if second { &SECOND } else { &FIRST };
    let (mut world, mut model) = begun(second)?;
    do_steps(&mut model, download.block);
    play(&mut world, &[offer(download.file), pass(10)], None);
    let before = after_steps(&model, download.commit, writes);
    let torn = tear_of(tear, &before, download.commit, writes);
    let found = harm(&mut model, download.commit, writes, torn, kind);
    goes_on(&mut world, fate_of(kind, works, torn), found);
    let image = image_of(download, &model, writes, found);
    is_as_the_model(&world, &model, image);
    if kind == Kind::Cut {
        installs(&mut world, download.file);
    }
    Ok(())
}

/// Harms the erase that closes the open gate at the first block of the second download.
fn harms_begin(tear: u32, kind: Kind) -> Outcome {
    let (mut world, mut model) = begun(true)?;
    play(&mut world, &[offer(SECOND.file), pass(6)], None);
    let before = model.clone();
    let torn = tear_of(tear, &before, SECOND.block, 0);
    let found = match harm(&mut model, SECOND.block, 0, torn, kind) {
        Some(Code::Prog) => Some(Code::Write),
        other => other,
    };
    goes_on(&mut world, fate_of(kind, 0, torn), found);
    is_as_the_model(&world, &model, SECOND.old);
    Ok(())
}

#[test]
fn harms_in_each_write_and_erase_leave_what_the_model_does() -> Outcome {
    for kind in [Kind::Cut, Kind::Fails, Kind::Lies] {
        for tear in 0..4 {
            for works in 0..7 {
                harms_commit(false, (works, tear, kind))?;
                if kind != Kind::Fails {
                    harms_commit(true, (works, tear, kind))?;
                }
            }
            harms_begin(tear, kind)?;
        }
    }
    Ok(())
}
