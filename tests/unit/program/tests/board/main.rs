//! A board beside a device that writes its medium itself, each on a link with a host: both get the same events.

mod chip;
mod events;
mod harm;
mod link;
mod lists;
mod pair;
mod setup;

use dfu::sim::Event;
use unit_program::Outcome;
use unit_program::dice::Dice;

/// How many lists of events are played of each kind.
const LISTS: u32 = 2000;

#[test]
fn a_board_answers_what_a_device_answers() -> Outcome {
    for number in 0..LISTS {
        lists::small_blocks(&mut Dice {
            state: u64::from(number),
        })?;
    }
    Ok(())
}

#[test]
fn a_board_takes_large_blocks_as_a_device_does() -> Outcome {
    for number in 0..LISTS {
        lists::large_blocks(
            &mut Dice {
                state: u64::from(number),
            },
            number % 2 == 1,
        )?;
    }
    Ok(())
}

#[test]
fn a_second_write_fails_behind_bytes_that_were_held_back() -> Outcome {
    for passes in 1..20 {
        lists::held_back(passes)?;
    }
    Ok(())
}

#[test]
fn a_download_that_holds_bytes_back_is_given_up() -> Outcome {
    for passes in 1..16 {
        for next in 0..16 {
            for by in [Event::Abort, Event::Reset, Event::Cut] {
                lists::given_up(passes, by, next)?;
            }
        }
    }
    Ok(())
}
