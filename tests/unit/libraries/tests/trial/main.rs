//! Trials on a simulated medium in units of 16 and sectors of 256, with 256 bytes of data in a slot: the slots begin at 0 and 768, their
//! data at 512 and 1,280, and their marks at 272 and 1,040.

use fustrelan::boot::trial::{
    Confirmation, Operation, Settled, Standing, Starting, Trial, TriesFault, boot, check_tries,
    look,
};
use fustrelan::memory::Global;
use fustrelan::slots::{Faulty, SimMedium, Slots, Unit};
use unit::Outcome;

mod looks;

const FIRST: u32 = 0;
const SECOND: u32 = 768;

/// Formatted with the one byte 00h.
fn formatted() -> Outcome<SimMedium> {
    let medium = SimMedium::with_sectors(Global, 1536, Unit::U16, 256)?;
    let slots = Slots::format(medium, &[0]).map_err(|(fault, _)| fault)?;
    Ok(slots.into_medium())
}

/// FFh four times is installed.
fn installed(medium: SimMedium) -> Outcome<SimMedium> {
    let mut slots = Slots::open(medium).map_err(|(fault, _)| fault)?;
    slots.begin()?;
    slots.put(0, &[0xff; 4])?;
    slots.commit(4)?;
    Ok(slots.into_medium())
}

/// The standing of the medium, with two tries.
fn standing(medium: &SimMedium) -> Outcome<Standing> {
    check_tries(medium, 2)?;
    Ok(look(medium, 2)?)
}

/// What a start does, with two tries allowed.
fn started(medium: &SimMedium) -> Outcome<Starting> {
    check_tries(medium, 2)?;
    Ok(look(medium, 2)?.start(medium, 2))
}

/// Which slot runs, with two tries.
fn booted(medium: &mut SimMedium) -> Outcome<u32> {
    check_tries(medium, 2)?;
    Ok(boot(medium, 2)?)
}

/// Confirms the image that begins there. Returns what the confirmation was.
fn confirmed(medium: &mut SimMedium, at: u32) -> Outcome<Confirmation> {
    check_tries(medium, 2)?;
    let confirmation = look(medium, 2)?.confirm(medium, 2, at);
    if let Confirmation::By(operation) = confirmation {
        operation.carry_out(medium)?;
    }
    Ok(confirmation)
}

/// Ends a trial. Returns the operation that this needed.
fn ended(medium: &mut SimMedium) -> Outcome<Option<Operation>> {
    check_tries(medium, 2)?;
    let operation = look(medium, 2)?.end(medium, 2);
    if let Some(operation) = operation {
        operation.carry_out(medium)?;
    }
    Ok(operation)
}

/// The new image is on trial, after so many starts.
fn on_trial(starts: u32) -> Standing {
    Standing::OnTrial(Trial {
        slot: SECOND,
        base: FIRST,
        starts,
    })
}

/// This slot runs, and none is on trial.
fn settled(slot: u32, is_confirmed: bool) -> Standing {
    Standing::Settled(Settled { slot, is_confirmed })
}

/// A new image over a confirmed one.
fn tried() -> Outcome<SimMedium> {
    let mut medium = formatted()?;
    confirmed(&mut medium, 512)?;
    installed(medium)
}

#[test]
fn the_first_confirmation_is_a_mark_at_272() -> Outcome {
    let mut medium = formatted()?;
    assert_eq!(standing(&medium)?, settled(FIRST, false));
    assert_eq!(
        confirmed(&mut medium, 512)?,
        Confirmation::By(Operation::Mark(272, 16))
    );
    assert_eq!(standing(&medium)?, settled(FIRST, true));
    assert_eq!(confirmed(&mut medium, 512)?, Confirmation::Confirmed);
    assert_eq!(confirmed(&mut medium, 1280)?, Confirmation::Elsewhere);
    Ok(())
}

#[test]
fn nothing_is_on_trial_before_a_confirmation() -> Outcome {
    let mut medium = installed(formatted()?)?;
    assert_eq!(standing(&medium)?, settled(SECOND, false));
    assert_eq!(booted(&mut medium)?, SECOND);
    assert_eq!(ended(&mut medium)?, None);
    Ok(())
}

#[test]
fn two_starts_and_the_old_image_is_back() -> Outcome {
    let mut medium = tried()?;
    assert_eq!(standing(&medium)?, on_trial(0));
    assert_eq!(started(&medium)?.operation, Some(Operation::Mark(1056, 16)));
    assert_eq!(booted(&mut medium)?, SECOND);
    assert_eq!(standing(&medium)?, on_trial(1));
    assert_eq!(booted(&mut medium)?, SECOND);
    assert_eq!(standing(&medium)?, on_trial(2));
    assert_eq!(booted(&mut medium)?, FIRST);
    assert_eq!(standing(&medium)?, settled(FIRST, true));
    assert_eq!(booted(&mut medium)?, FIRST);
    Ok(())
}

#[test]
fn a_mark_that_lies_is_no_start() -> Outcome {
    let mut medium = tried()?;
    medium.arm_lie(0, &[]);
    assert_eq!(booted(&mut medium)?, FIRST);
    assert_eq!(standing(&medium)?, on_trial(0));
    medium.arm(0, &[0x00], false);
    assert_eq!(booted(&mut medium)?, SECOND);
    assert_eq!(standing(&medium)?, on_trial(1));
    Ok(())
}

#[test]
fn the_old_image_confirms_nothing() -> Outcome {
    let mut medium = tried()?;
    assert_eq!(booted(&mut medium)?, SECOND);
    assert_eq!(confirmed(&mut medium, 512)?, Confirmation::Confirmed);
    assert_eq!(standing(&medium)?, on_trial(1));
    assert_eq!(
        confirmed(&mut medium, 1280)?,
        Confirmation::By(Operation::Mark(1040, 16))
    );
    assert_eq!(standing(&medium)?, settled(SECOND, true));
    Ok(())
}

#[test]
fn a_download_ends_the_trial_first() -> Outcome {
    let mut medium = tried()?;
    assert_eq!(booted(&mut medium)?, SECOND);
    assert_eq!(ended(&mut medium)?, Some(Operation::Close(768)));
    assert_eq!(standing(&medium)?, settled(FIRST, true));
    let medium = installed(medium)?;
    assert_eq!(standing(&medium)?, on_trial(0));
    Ok(())
}

#[test]
fn tries_are_refused_by_name() -> Outcome {
    let medium = SimMedium::with_sectors(Global, 1536, Unit::U16, 256)?;
    assert_eq!(check_tries(&medium, 0), Err(TriesFault::TooFew));
    assert_eq!(check_tries(&medium, 1), Err(TriesFault::TooFew));
    assert_eq!(check_tries(&medium, 2), Ok(()));
    assert_eq!(check_tries(&medium, 14), Ok(()));
    assert_eq!(check_tries(&medium, 15), Err(TriesFault::TooMany));
    let flat = SimMedium::with_unit(Global, 1536, Unit::U16)?;
    assert_eq!(check_tries(&flat, 2), Err(TriesFault::NoSectors));
    Ok(())
}
