//! What follows by the rows of the host's table, in sessions that can be begun anew.

use super::dialogue::{DEVICE, limits};
use super::played::told;
use super::rows::{Asks, FINDING, Row};
use fustrelan::host::Seen::{Ack, Bytes, Left, Nothing, Restarted, Stall, Waited, WasReset};
use fustrelan::host::{Action, Host, Report, Seen};
use fustrelan::memory::Global;
use fustrelan::suffix::read;
use fustrelan::wire::{Code, Functional};
use unit::Outcome;

/// The codes of section 6.1.2, in their order.
static CODES: [Code; 16] = [
    Code::Ok,
    Code::Target,
    Code::File,
    Code::Write,
    Code::Erase,
    Code::CheckErased,
    Code::Prog,
    Code::Verify,
    Code::Address,
    Code::NotDone,
    Code::Firmware,
    Code::Vendor,
    Code::Usbr,
    Code::Por,
    Code::Unknown,
    Code::StalledPkt,
];

/// What follows a status.
fn by_status(letters: &[u8], bytes: &[u8]) -> Option<u8> {
    let [code, _, _, _, state, _] = bytes else {
        return None;
    };
    let start = match *code {
        0 => 0,
        15 => 12,
        1..=14 => 24,
        _ => return None,
    };
    if *state > 10 {
        return None;
    }
    letters.get(start + usize::from(*state)).copied()
}

/// What follows an answer to GETSTATE.
fn by_state(letters: &[u8], bytes: &[u8]) -> Option<u8> {
    let [state] = bytes else {
        return None;
    };
    letters.get(usize::from(*state)).copied()
}

/// What follows bytes in a phase, if they are an answer.
fn answered(row: &Row, bytes: &[u8]) -> Option<u8> {
    match row.4 {
        Asks::Nothing => None,
        Asks::Status => by_status(row.5, bytes),
        Asks::State => by_state(row.5, bytes),
        Asks::Part if bytes.len() < 8 => Some(b'Y'),
        Asks::Part => None,
        Asks::Compared(letter) if bytes == row.5 => Some(letter),
        Asks::Compared(_) if bytes.len() <= 8 => Some(b'Z'),
        Asks::Compared(_) => None,
    }
}

/// The letter of the phase that follows.
pub fn after(row: &Row, seen: Seen<'_>) -> u8 {
    let [acked, stalled, lost, waited, was_reset, left] = *row.3;
    match seen {
        Ack => acked,
        Bytes(bytes) => answered(row, bytes).unwrap_or(lost),
        Stall => stalled,
        Nothing => lost,
        Waited => waited,
        WasReset => was_reset,
        Restarted => match row.2 {
            Action::Done(_) => row.0,
            _ => b'F',
        },
        Left => left,
    }
}

/// The row of a letter in a table.
fn row_in(rows: &[Row], letter: u8) -> Option<Row> {
    rows.iter().find(|row| row.0 == letter).copied()
}

/// The end that is Refused with the code of this byte.
pub fn refusal(code: u8) -> Option<Action<'static>> {
    let code = CODES.get(usize::from(code))?;
    Some(Action::Done(Report::Refused(*code)))
}

/// A session that can be begun anew.
pub struct Session<'f> {
    /// The file of a download; of an upload nothing.
    pub file: &'f [u8],
    pub device: &'f Functional,
    /// What is seen before a comparison begins; of all others nothing.
    pub before: &'f [Seen<'static>],
    /// The rows after those of finding the device, and its own rows.
    pub rows: &'f [Row],
    pub own: &'f [Row],
}

impl<'f> Session<'f> {
    /// A host in the phase of a row, with one restart left.
    pub fn host(&self, row: &Row) -> Outcome<Host<'f>> {
        let limits = limits(100, 1);
        let mut host = if self.file.is_empty() {
            Host::upload(Global, self.device, limits)?
        } else if self.before.is_empty() {
            Host::download(&read(self.file)?, self.device, DEVICE, limits)?
        } else {
            Host::download_verified(&read(self.file)?, self.device, DEVICE, limits)?
        };
        told(&mut host, self.before);
        told(&mut host, row.1);
        Ok(host)
    }

    /// The row of a letter.
    fn row(&self, letter: u8) -> Option<Row> {
        let tables = [&FINDING[..], self.rows, self.own];
        tables.into_iter().find_map(|rows| row_in(rows, letter))
    }

    /// The action in the phase of a letter, once all this is seen there.
    pub fn action(&self, letter: u8, all: &[Seen<'_>]) -> Option<Action<'static>> {
        let mut row = self.row(letter)?;
        for seen in all {
            row = self.row(after(&row, *seen))?;
        }
        Some(row.2)
    }
}
