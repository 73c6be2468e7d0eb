// Of crates/dfu_conformance/src/judge.rt, whose contracts are taken away.

//! The judge of one device, which uses the tables of the standard and of the habits.

use crate::conformance::held::{Places, is_any_held, least_held, places_of, step};
use crate::conformance::{Departure, LogEvent, Verdict};

/// Candidates before the first event: every device, in every state.
const EVERY: Places = [[u64::MAX; 16]; 12];

/// A judge of one device, about which nothing is known at first. It follows all possible devices at once, with each set of habits. It has
/// 3,080 bytes, and allocates no memory.
#[derive(Debug, PartialEq, Eq)]
pub struct Judge {
    // True after the first departure. Before that, `since` is not used, because `whole` contains the same candidates.
    has_departed: bool,
    // Candidates for the events since the last departure.
    since: Places,
    // Candidates for all events.
    whole: Places,
}

/// Returns the departure at `event` if `after` has no candidate without habits, or None.
fn departure(before: &Places, after: &Places, event: &LogEvent) -> Option<Departure> {
    if is_any_held(after, 0) {
        return None;
    }
    Some(Departure {
        before: places_of(before, 0),
        event: *event,
    })
}

impl Judge {
    /// Returns a judge before the first event. The device may be in any state.
    pub fn new() -> Judge {
        Judge {
            has_departed: false,
            since: EVERY,
            whole: EVERY,
        }
    }

    /// Processes the next event. If no device that keeps the standard could have given the answers of all events since the last departure,
    /// including this one, returns a departure, and restarts its search with every state. The verdict still covers all events.
    pub fn take(&mut self, event: &LogEvent) -> Option<Departure> {
        let whole = step(&self.whole, event);
        if self.has_departed {
            let since = step(&self.since, event);
            match departure(&self.since, &since, event) {
                Some(departure) => {
                    self.whole = whole;
                    self.since = EVERY;
                    Some(departure)
                }
                None => {
                    self.whole = whole;
                    self.since = since;
                    None
                }
            }
        } else {
            match departure(&self.whole, &whole, event) {
                Some(departure) => {
                    self.has_departed = true;
                    self.whole = whole;
                    self.since = EVERY;
                    Some(departure)
                }
                None => {
                    self.whole = whole;
                    None
                }
            }
        }
    }

    /// Returns the verdict on all events that the judge has processed.
    pub fn verdict(&self) -> Verdict {
        if is_any_held(&self.whole, 0) {
            return Verdict::Kept;
        }
        match least_held(&self.whole, 64) {
            Some(readings) => Verdict::KeptBy { readings },
            None => Verdict::NotKept,
        }
    }

    /// Returns, for each state in the order of `StandardState`, true if a device with the set of habits `readings`, 0 to 63, may
    /// be in it after all events.
    pub fn places(&self, readings: u8) -> [bool; 12] {
        places_of(&self.whole, readings)
    }

    /// Returns, for each state in the order of `StandardState`, true if a device without habits may be in it after the events
    /// since the last departure.
    pub fn standing(&self) -> [bool; 12] {
        if self.has_departed {
            places_of(&self.since, 0)
        } else {
            places_of(&self.whole, 0)
        }
    }
}
