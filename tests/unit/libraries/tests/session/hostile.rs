//! Hosts in each phase, which get each thing that can be seen.

use super::dialogue::{ABORT, DFU_IDLE, INSTALLED, SILENT, TOLERANT, WRITTEN};
use super::files::NINE;
use super::following::{Session, after, refusal};
use super::played::{shows, told, wants};
use super::rows::{COMPARING, ERROR, FETCHING, FINDING, Row, SENDING, SILENTLY, TOLERANTLY};
use fustrelan::host::Seen::{Ack, Bytes, Left, Nothing, Restarted, Stall, Waited, WasReset};
use fustrelan::host::{Action, Host, Report, Seen};
use unit::Outcome;

/// What distinguishes the phases that have the same action.
static PROBES: [&[Seen<'static>]; 14] = [
    &[],
    &[Ack],
    &[Stall],
    &[Nothing],
    &[Waited],
    &[WasReset],
    &[DFU_IDLE],
    &[WRITTEN],
    &[ERROR],
    &[Bytes(&[2])],
    &[Bytes(&[5])],
    &[Bytes(&[6])],
    &[Waited, DFU_IDLE],
    &[Waited, WRITTEN],
];

/// A host wants this, which has to be known.
fn wants_some(host: &Host<'_>, wanted: Option<Action<'static>>) {
    wants(host, wanted.expect("a row says what follows"));
}

/// A host in a phase gets this, and then each probe.
fn tell(session: &Session<'_>, row: &Row, seen: Seen<'_>) -> Outcome {
    let letter = after(row, seen);
    for probe in &PROBES {
        let mut host = session.host(row)?;
        host.take(seen);
        told(&mut host, probe);
        wants_some(&host, session.action(letter, probe));
    }
    Ok(())
}

/// Bytes that are no status and no state.
static NO_ANSWER: [u8; 4097] = [0xff; 4097];

/// What is no status and no state.
fn tell_words(session: &Session<'_>, row: &Row) -> Outcome {
    for seen in [Ack, Stall, Nothing, Waited, WasReset, Restarted, Left] {
        tell(session, row, seen)?;
    }
    for len in 0..8usize {
        tell(session, row, Bytes(&NO_ANSWER[..len]))?;
    }
    tell(session, row, Bytes(&NO_ANSWER))
}

/// The status of each state, and of one past them, with a code.
fn tell_states(session: &Session<'_>, row: &Row, code: u8) -> Outcome {
    for state in 0..12u8 {
        tell(session, row, Bytes(&[code, 5, 0, 0, state, 0]))?;
    }
    Ok(())
}

/// Statuses with OK, with errADDRESS, with errSTALLEDPKT and with no code, and answers to GETSTATE.
fn tell_answers(session: &Session<'_>, row: &Row) -> Outcome {
    for code in [0, 8, 15, 16] {
        tell_states(session, row, code)?;
    }
    for state in 0..12u8 {
        tell(session, row, Bytes(&[state]))?;
    }
    Ok(())
}

/// A host in a phase gets these bytes.
fn tell_bytes(session: &Session<'_>, row: &Row, bytes: &[u8]) -> Outcome {
    let mut host = session.host(row)?;
    host.take(Bytes(bytes));
    let letter = after(row, Bytes(bytes));
    let wanted = match bytes {
        [code, ..] if letter == b'X' && row.0 != b'X' => refusal(*code),
        _ => session.action(letter, &[]),
    };
    wants_some(&host, wanted);
    Ok(())
}

/// Each byte as a code and as a state.
fn tell_each_byte(session: &Session<'_>, row: &Row) -> Outcome {
    for byte in 0..=255u8 {
        tell_bytes(session, row, &[byte])?;
        tell_bytes(session, row, &[0, 5, 0, 0, byte, 0])?;
        tell_bytes(session, row, &[8, 5, 0, 0, byte, 0])?;
        tell_bytes(session, row, &[byte, 5, 0, 0, 2, 0])?;
        tell_bytes(session, row, &[byte, 5, 0, 0, 10, 0])?;
    }
    Ok(())
}

/// A host is given up in a phase. What comes of the ABORT doesn't matter.
fn give_up(session: &Session<'_>, row: &Row) -> Outcome {
    if let Action::Done(_) = row.2 {
        let mut host = session.host(row)?;
        host.abort();
        wants(&host, row.2);
        return Ok(());
    }
    for seen in [
        Ack, WRITTEN, Stall, Nothing, Waited, WasReset, Restarted, Left,
    ] {
        let mut host = session.host(row)?;
        host.abort();
        host.abort();
        wants(&host, ABORT);
        host.take(seen);
        wants(&host, Action::Done(Report::Aborted));
        shows(&host, &[]);
    }
    Ok(())
}

/// Two restarts in a phase, of which one is allowed.
fn restart(session: &Session<'_>, row: &Row) -> Outcome {
    let mut host = session.host(row)?;
    host.take(Restarted);
    host.take(Restarted);
    let wanted = match row.2 {
        Action::Done(_) => row.2,
        _ => Action::Done(Report::RestartsSpent),
    };
    wants(&host, wanted);
    Ok(())
}

/// A device that left by itself twice: other than after the close these are two restarts.
fn leave(session: &Session<'_>, row: &Row) -> Outcome {
    let mut host = session.host(row)?;
    host.take(Left);
    host.take(Left);
    let wanted = match after(row, Left) {
        b'F' => Some(Action::Done(Report::RestartsSpent)),
        letter => session.action(letter, &[]),
    };
    wants_some(&host, wanted);
    Ok(())
}

/// All of this in each phase of a table.
fn try_rows(session: &Session<'_>, rows: &[Row]) -> Outcome {
    for row in rows {
        let host = session.host(row)?;
        wants(&host, row.2);
        tell_words(session, row)?;
        tell_answers(session, row)?;
        tell_each_byte(session, row)?;
        give_up(session, row)?;
        restart(session, row)?;
        leave(session, row)?;
    }
    Ok(())
}

/// All of this in each phase of a session.
fn try_session(session: &Session<'_>) -> Outcome {
    try_rows(session, &FINDING)?;
    try_rows(session, session.rows)?;
    try_rows(session, session.own)
}

#[test]
fn download_to_a_tolerant_device() -> Outcome {
    try_session(&Session {
        file: &NINE,
        device: &TOLERANT,
        before: &[],
        rows: &SENDING,
        own: &TOLERANTLY,
    })
}

#[test]
fn download_to_another_device() -> Outcome {
    try_session(&Session {
        file: &NINE,
        device: &SILENT,
        before: &[],
        rows: &SENDING,
        own: &SILENTLY,
    })
}

#[test]
fn upload() -> Outcome {
    try_session(&Session {
        file: &[],
        device: &TOLERANT,
        before: &[],
        rows: &FETCHING,
        own: &[],
    })
}

#[test]
fn comparison() -> Outcome {
    try_session(&Session {
        file: &NINE,
        device: &TOLERANT,
        before: &INSTALLED,
        rows: &COMPARING,
        own: &[],
    })
}
