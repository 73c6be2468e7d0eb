//! Sessions that are taken apart and put together between all steps.

use super::dialogue::{AMPLE, DEVICE, DFU_IDLE, INSTALLED, SILENT, TOLERANT};
use super::files::NINE;
use super::rows::{COMPARING, FETCHING, FINDING, Row, SENDING, SILENTLY, TOLERANTLY};
use fustrelan::host::Seen::{Ack, Bytes, Left, Nothing, Restarted, Stall, Waited, WasReset};
use fustrelan::host::{Action, Host, Parts, Report, Seen, Session};
use fustrelan::memory::Global;
use fustrelan::suffix::{File, read};
use fustrelan::wire::Functional;
use unit::Outcome;

/// What a session gets at the end of each path.
static LAST: [Seen<'static>; 9] = [
    Ack,
    Stall,
    Nothing,
    Waited,
    WasReset,
    Restarted,
    Left,
    DFU_IDLE,
    Bytes(b"9"),
];

/// A host, and a session beside it with what it keeps.
struct Pair<'f> {
    host: Host<'f>,
    parts: Parts<'f>,
    room: [u8; 24],
    kept: usize,
}

impl<'f> Pair<'f> {
    /// Both, with nothing kept.
    fn new(host: Host<'f>, session: &Session<'f>) -> Pair<'f> {
        Pair {
            host,
            parts: session.parts(),
            room: [0; 24],
            kept: 0,
        }
    }

    /// The session of the parts.
    fn session(&self) -> Session<'f> {
        Session::from_parts(self.parts).expect("the parts are a session's")
    }

    /// Both want the same, and what is sent lies in the payload where the session says.
    fn agrees(&self, payload: &[u8]) {
        let session = self.session();
        let action = session.next();
        assert_eq!(self.host.next(), action);
        if let Action::Send { body, .. } = action {
            let from = session.sends_from();
            assert_eq!(&payload[from..from + body.len()], body);
        }
        if let Action::Done(Report::Uploaded) = action {
            assert_eq!(&self.room[..self.kept], self.host.uploaded());
        }
    }

    /// Both get all of this.
    fn told(&mut self, payload: &[u8], all: &[Seen<'_>]) {
        for seen in all {
            self.agrees(payload);
            let mut session = self.session();
            self.kept = session.take(&mut self.room, self.kept, *seen);
            self.parts = session.parts();
            self.host.take(*seen);
        }
        self.agrees(payload);
    }

    /// Both are given up.
    fn give_up(&mut self, payload: &[u8]) {
        let mut session = self.session();
        session.abort();
        self.parts = session.parts();
        self.host.abort();
        self.told(payload, &[Stall]);
    }
}

/// A download along the path of a row, and then each thing that can be seen.
fn load(functional: &Functional, row: &Row) -> Outcome {
    let file = read(&NINE)?;
    for last in &LAST {
        let session = Session::download(&file, functional, DEVICE, AMPLE)?;
        let host = Host::download(&file, functional, DEVICE, AMPLE)?;
        let mut pair = Pair::new(host, &session);
        pair.told(file.payload(), row.1);
        pair.told(file.payload(), &[*last]);
        pair.give_up(file.payload());
    }
    Ok(())
}

#[test]
fn downloads_go_on() -> Outcome {
    for rows in [&FINDING[..], &SENDING, &TOLERANTLY] {
        for row in rows {
            load(&TOLERANT, row)?;
        }
    }
    Ok(())
}

#[test]
fn downloads_to_silent_devices_go_on() -> Outcome {
    for rows in [&SENDING[..], &SILENTLY] {
        for row in rows {
            load(&SILENT, row)?;
        }
    }
    Ok(())
}

/// A download that is verified, along the path of a row of its comparison.
fn verify(file: &File<'_>, row: &Row, last: Seen<'_>) -> Outcome {
    let session = Session::download_verified(file, &TOLERANT, DEVICE, AMPLE)?;
    let host = Host::download_verified(file, &TOLERANT, DEVICE, AMPLE)?;
    let mut pair = Pair::new(host, &session);
    pair.told(file.payload(), &INSTALLED);
    pair.told(file.payload(), row.1);
    pair.told(file.payload(), &[last]);
    Ok(())
}

#[test]
fn verified_downloads_go_on() -> Outcome {
    let file = read(&NINE)?;
    for row in &COMPARING {
        for last in &LAST {
            verify(&file, row, *last)?;
        }
    }
    Ok(())
}

#[test]
fn uploads_go_on() -> Outcome {
    for row in &FETCHING {
        for last in &LAST {
            let session = Session::upload(&TOLERANT, AMPLE)?;
            let host = Host::upload(Global, &TOLERANT, AMPLE)?;
            let mut pair = Pair::new(host, &session);
            pair.told(&[], row.1);
            pair.told(&[], &[*last]);
            pair.give_up(&[]);
        }
    }
    Ok(())
}
