//! A session of the host: it reads a file, installs it and compares it. host.c is the same in C.

use crate::{Room, TRANSFER};
use fustrelan::host::{Action, Limits, Report, Seen, Session};
use fustrelan::suffix::read_small;
use fustrelan::wire::{Functional, Ids};

unsafe extern "C" {
    fn peer_transfer(setup: *const u8, body: *const u8, length: usize, answer: *mut u8) -> i32;
    safe fn peer_reset();
}

/// Makes a transfer: how many bytes came, or None for a stall.
fn transfer(setup: &[u8; 8], body: &[u8], answer: &mut [u8; TRANSFER]) -> Option<usize> {
    // (the device answers no more than the setup asks for, which is at most TRANSFER here)
    let came = unsafe { peer_transfer(setup.as_ptr(), body.as_ptr(), body.len(), answer.as_mut_ptr()) };
    usize::try_from(came).ok()
}

/// Does an action: what is seen of it; or the report of the session.
fn act<'o>(action: Action<'_>, out: &'o mut [u8; TRANSFER]) -> Result<Seen<'o>, Report> {
    match action {
        Action::Send { setup, body } => Ok(match transfer(&setup, body, out) {
            None => Seen::Stall,
            Some(_) if setup[0] == 0x21 => Seen::Ack,
            Some(count) => Seen::Bytes(&out[..count]),
        }),
        Action::Wait(_) => Ok(Seen::Waited),
        Action::Reset => {
            peer_reset();
            Ok(Seen::WasReset)
        }
        Action::Done(report) => Err(report),
    }
}

fn run(room: &mut Room) -> Result<(), u32> {
    let Room { out, file, descriptor, .. } = room;
    let file = read_small(file).map_err(|_| 1u32)?;
    let functional = Functional::decode(descriptor).map_err(|_| 2u32)?;
    let ids = Ids { device: 0x0100, product: 1, vendor: 0x1209 };
    let limits = Limits { actions: 100_000, restarts: 3 };
    let mut session = Session::download_verified(&file, &functional, ids, limits).map_err(|_| 2u32)?;
    loop {
        match act(session.next(), out) {
            Ok(seen) => session.take(&mut [], 0, seen),
            Err(Report::Verified) => return Ok(()),
            Err(_) => return Err(4),
        };
    }
}

/// 0, or the number of the step that went wrong.
#[unsafe(no_mangle)]
pub extern "C" fn session(room: &mut Room) -> u32 {
    run(room).err().unwrap_or(0)
}
