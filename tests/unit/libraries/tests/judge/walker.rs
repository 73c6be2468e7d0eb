//! A device that follows the cells, with a wrong row planted in it, on a random walk.

use super::cells::{cell, state_of};
use super::{POWER, REQUESTS, RESET, asked, bytes, state, status};
use fustrelan::conformance::{Judge, LogEvent, Response, Verdict};

/// A planted row: in this state, this request of the list gets this answer (a letter), and this state is entered, or reported.
#[derive(Clone, Copy)]
pub struct Planted {
    pub state: u8,
    pub request: usize,
    pub letter: u8,
    pub next: u8,
}

/// A device that can download and upload and is tolerant.
#[derive(Clone, Copy)]
pub struct Walker {
    state: u8,
    /// In dfuDNLOAD-SYNC the block is written; in dfuMANIFEST-SYNC manifestation is complete.
    is_done: bool,
    random: u32,
    planted: Option<Planted>,
}

impl Walker {
    /// A device in appIDLE.
    pub fn new(seed: u32, planted: Option<Planted>) -> Walker {
        Walker {
            state: 0,
            is_done: false,
            random: seed,
            planted,
        }
    }

    /// A random number below 256.
    fn random(&mut self) -> u32 {
        self.random = self
            .random
            .wrapping_mul(1_664_525)
            .wrapping_add(1_013_904_223);
        self.random >> 24
    }

    /// What a sensible host does next: a request of the list, 9 a reset, 10 a wait.
    fn sensible(&mut self) -> usize {
        let other = self.random() < 128;
        match self.state {
            0 => 0,
            1 => 9,
            2 => {
                if other {
                    1
                } else {
                    3
                }
            }
            5 => {
                if other {
                    1
                } else {
                    2
                }
            }
            3 | 6 => 4,
            4 | 7 => 10,
            9 => 3,
            10 => 5,
            _ => 9,
        }
    }

    /// What comes next: mostly what is sensible, else a GETSTATUS, a GETSTATE, a reset or any request.
    fn choose(&mut self) -> usize {
        match self.random() {
            0..140 => self.sensible(),
            140..170 => 4,
            170..200 => 6,
            200..206 => 9,
            _ => (self.random() % 9) as usize,
        }
    }

    /// Time passes.
    fn wait(&mut self) {
        match self.state {
            4 => self.enter(3, true),
            7 => self.enter(6, true),
            _ => {}
        }
    }

    fn enter(&mut self, next: u8, is_done: bool) {
        self.state = next;
        self.is_done = is_done;
    }

    /// What the cells have for a request, the first if there are several, except for what is done.
    fn row(&mut self, request: usize) -> (u8, u8) {
        let is_planted = |it: &Planted| it.state == self.state && it.request == request;
        if let Some(planted) = self.planted.filter(is_planted) {
            return (planted.letter, planted.next);
        }
        match (self.state, request, self.is_done) {
            (3, 4, true) => (b'T', 5),
            (6, 4, true) => (b'T', 2),
            (4 | 7, _, _) => (b'S', 10),
            (3 | 6, 7, _) => (b'S', 10),
            (8, _, _) => (b'S', 8),
            (2 | 9, 3, _) => {
                if self.random() < 128 {
                    (b'F', 9)
                } else {
                    (b'P', 2)
                }
            }
            _ => match cell(self.state, request) {
                [letter, next, ..] => (*letter, state_of(*next)),
                _ => (b'S', self.state),
            },
        }
    }

    /// The event of a request.
    fn ask(&mut self, request: usize) -> Option<LogEvent> {
        let (letter, next) = self.row(request);
        let code = if next == 10 { 14 } else { 0 };
        let answer = match letter {
            b'A' => bytes(&[]),
            b'T' => status(code, next),
            b'N' => status(14 - code, next),
            b'Q' => state(next),
            b'F' => bytes(&[1; 8]),
            b'P' => bytes(&[1; 5]),
            _ => Response::Stall,
        };
        if letter != b'Q' {
            self.enter(next, false);
        }
        match REQUESTS.get(request) {
            Some(setup) => asked(setup, answer),
            None => None,
        }
    }

    /// One step of the walk: the event that is seen, or nothing if time passes.
    fn step(&mut self) -> Option<LogEvent> {
        match self.choose() {
            9 => {
                let next = if self.state == 1 { 2 } else { 0 };
                self.enter(next, false);
                Some(RESET)
            }
            10 => {
                self.wait();
                None
            }
            request => self.ask(request),
        }
    }
}

/// The step at which a judge finds the first departure on a walk of so many steps, or its verdict if it finds none.
pub fn first_departure(seed: u32, steps: u32, planted: Option<Planted>) -> Result<Verdict, u32> {
    let mut judge = Judge::new();
    let mut walker = Walker::new(seed, planted);
    let _ = judge.take(&POWER);
    for step in 0..steps {
        let event = walker.step();
        if event.is_some_and(|event| judge.take(&event).is_some()) {
            return Err(step);
        }
    }
    Ok(judge.verdict())
}
