//! A session: what the host asks for is carried out, and what came of that is reported to it.

use crate::begin::{BeginFault, MOST_BYTES, begin};
use crate::port::{Back, Found, Outcome, Port};
use fustrelan::host::{Action, Report, Seen, Session};
use fustrelan::suffix::read;

/// Requests and resets in a row that may have no answer.
const MOST_SILENT: u32 = 24;
/// Resets in a row of a device that stalls what it is asked in run-time mode.
const MOST_STALLED: u32 = 3;
const OUT: u8 = 0x21;
const DETACH: u8 = 0;
const DNLOAD: u8 = 1;
const GETSTATUS: u8 = 3;
/// bState of dfuMANIFEST-SYNC and of dfuMANIFEST.
const MANIFESTING: [u8; 2] = [6, 7];

/// How a session ends.
#[derive(Clone, Copy, Debug, PartialEq, Eq)]
pub enum End {
    /// By a report of the host. The image is in place by Installed and Verified alone.
    Report(Report),
    /// The device left and did not come back.
    Gone,
    /// It came back with more than one setting.
    Several,
    /// It answers no more.
    Silent,
    /// Another device came back, or the same with another functional descriptor: it was sent nothing.
    Other,
    /// It stalls what it is asked in run-time mode: bring it to DFU mode by hand.
    Stalled,
}

/// How it goes on: `Err` if it ends, or begins anew with another functional descriptor.
type Course<T> = Result<T, Break>;

enum Break {
    Ends(End),
    BeginsAnew,
}

/// What is known of the device and of what was sent to it.
struct Wire<'p, P> {
    port: &'p mut P,
    is_open: bool,
    /// What was first found in run-time mode, and in DFU mode.
    first: [Option<Found>; 2],
    /// The functional descriptor by which the session goes.
    functional: Vec<u8>,
    /// A block or the end of a download was sent.
    is_sent: bool,
    has_begun_anew: bool,
    /// A DETACH was acknowledged, and nothing was sent since.
    is_leaving: bool,
    /// The end of a download was acknowledged, and nothing but GETSTATUS was sent since.
    is_closed: bool,
    /// After that the device said that it puts the image in place.
    is_manifesting: bool,
    silent: u32,
    is_stalled: bool,
    stalled_resets: u32,
}

/// Sends a file, which has a suffix, to a device that is open; and compares what the device gives back, if it can.
///
/// # Errors
///
/// `File` if the file has no sound suffix; `Functional` if the device's functional descriptor is none; `DfuSe` if the device has ST's
/// extension; `Host` as `Session::download` has it, as of a file for another device. They are checked in this order.
pub fn flash<P: Port>(port: &mut P, file: &[u8]) -> Result<End, BeginFault> {
    let file = read(file)?;
    let mut wire = Wire {
        port,
        is_open: true,
        first: [None, None],
        functional: Vec::new(),
        is_sent: false,
        has_begun_anew: false,
        is_leaving: false,
        is_closed: false,
        is_manifesting: false,
        silent: 0,
        is_stalled: false,
        stalled_resets: 0,
    };
    loop {
        let mut session = begin(wire.port.found(), &file)?;
        wire.note();
        match wire.run(&mut session) {
            Err(Break::BeginsAnew) => {}
            Err(Break::Ends(end)) => return Ok(end),
            Ok(report) => return Ok(End::Report(report)),
        }
    }
}

impl<P: Port> Wire<'_, P> {
    /// Keeps what the device is, if it is the first one in its mode.
    fn note(&mut self) {
        let found = self.port.found();
        self.functional.clone_from(&found.functional);
        self.first[usize::from(found.is_upgrade)].get_or_insert_with(|| found.clone());
    }

    fn run(&mut self, session: &mut Session<'_>) -> Course<Report> {
        let mut bytes = [0; MOST_BYTES as usize];
        loop {
            let seen = match session.next() {
                Action::Done(report) => return Ok(report),
                Action::Wait(ms) => self.wait(ms),
                Action::Reset => self.reset()?,
                Action::Send { setup, body } => self.send(&setup, body, &mut bytes)?,
            };
            self.silent = if seen == Seen::Nothing { self.silent + 1 } else { 0 };
            session.take(&mut [], 0, seen);
            if self.silent >= MOST_SILENT {
                return Err(Break::Ends(End::Silent));
            }
        }
    }

    fn wait(&mut self, ms: u32) -> Seen<'static> {
        self.port.wait(ms);
        // A device that detaches by itself may be another one on the bus by now.
        self.is_open &= !self.is_leaving;
        Seen::Waited
    }

    fn reset(&mut self) -> Course<Seen<'static>> {
        if self.is_stalled {
            if self.stalled_resets == MOST_STALLED {
                return Err(Break::Ends(End::Stalled));
            }
            self.stalled_resets += 1;
        }
        (self.is_closed, self.is_manifesting, self.is_leaving) = (false, false, false);
        self.is_open = false;
        Ok(if self.port.reset() { Seen::WasReset } else { Seen::Nothing })
    }

    /// Opens the device again if it left: nothing is sent to another one.
    fn open(&mut self) -> Course<()> {
        if self.is_open {
            return Ok(());
        }
        match self.port.reopen() {
            Back::Here => {}
            Back::Missing => return Err(Break::Ends(End::Gone)),
            Back::Several => return Err(Break::Ends(End::Several)),
        }
        self.is_open = true;
        let found = self.port.found();
        let is_other = self.first[usize::from(found.is_upgrade)].as_ref().is_some_and(|first| !first.is_again(found));
        // Once a block was sent, a device in run-time mode may run another image.
        if is_other && (found.is_upgrade || !self.is_sent) {
            return Err(Break::Ends(End::Other));
        }
        if found.is_upgrade && found.functional != self.functional {
            if self.is_sent || self.has_begun_anew {
                return Err(Break::Ends(End::Other));
            }
            self.has_begun_anew = true;
            return Err(Break::BeginsAnew);
        }
        let found = found.clone();
        self.first[usize::from(found.is_upgrade)].get_or_insert(found);
        Ok(())
    }

    fn send<'b>(&mut self, setup: &[u8; 8], body: &[u8], bytes: &'b mut [u8]) -> Course<Seen<'b>> {
        self.open()?;
        let is_out = setup[0] == OUT;
        let is_download = is_out && setup[1] == DNLOAD;
        (self.is_sent, self.is_leaving) = (self.is_sent || is_download, false);
        let length = usize::from(u16::from_le_bytes([setup[6], setup[7]]));
        let outcome = self.port.transfer(setup, body, &mut bytes[..if is_out { 0 } else { length }]);
        let seen = match outcome {
            Outcome::Gone => return self.left(),
            Outcome::Stalled => Seen::Stall,
            Outcome::Made(count) if is_out && count == body.len() => Seen::Ack,
            Outcome::Made(count) if !is_out && count <= length => Seen::Bytes(&bytes[..count]),
            Outcome::Made(_) | Outcome::Lost => Seen::Nothing,
        };
        self.hear(setup, seen);
        Ok(seen)
    }

    /// Keeps what an answer says of the end of a download, of a DETACH, and of a device that stalls in run-time mode.
    fn hear(&mut self, setup: &[u8; 8], seen: Seen<'_>) {
        let is_acknowledged = seen == Seen::Ack;
        match seen {
            Seen::Stall => self.is_stalled = !self.port.found().is_upgrade,
            Seen::Nothing => {}
            _ => (self.is_stalled, self.stalled_resets) = (false, 0),
        }
        self.is_leaving = is_acknowledged && setup[..2] == [OUT, DETACH];
        if setup[1] == GETSTATUS {
            if let Seen::Bytes(&[_, _, _, _, state, _]) = seen {
                self.is_manifesting = self.is_closed && MANIFESTING.contains(&state);
            }
        } else {
            self.is_closed = is_acknowledged && setup[..2] == [OUT, DNLOAD] && setup[6..] == [0, 0];
            self.is_manifesting = false;
        }
    }

    /// The device left: by itself, if it may have started its image; else its restart is reported once it is back.
    fn left(&mut self) -> Course<Seen<'static>> {
        self.is_open = false;
        let is_manifesting = self.is_manifesting;
        (self.is_closed, self.is_manifesting) = (false, false);
        if is_manifesting {
            return Ok(Seen::Left);
        }
        self.open()?;
        Ok(Seen::Restarted)
    }
}
