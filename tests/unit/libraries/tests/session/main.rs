//! Sessions played by hand, from the tables of the standard and of this project's profile.

mod dialogue;
mod files;
mod following;
mod hostile;
mod leaving;
mod parting;
mod played;
mod rooms;
mod rows;
mod uploads;
mod verifying;

use dialogue::{
    AMPLE, APP_IDLE, BLOCK, BUSY, CLOSE, DETACH, DEVICE, DFU_IDLE, GET_STATUS, MANIFEST, TOLERANT,
    WRITTEN, descriptor, limits,
};
use files::{ALL_ONES, EMPTY, FOR_ZERO, NINE, zeros};
use fustrelan::host::{Action, Host, HostFault, Report, Seen};
use fustrelan::suffix::read;
use played::{Step, follow, play, wants};
use unit::refusing::Refusing;
use unit::{Outcome, are_displayed};

#[global_allocator]
static ALLOCATOR: Refusing = Refusing;

/// A clean download to a tolerant device.
pub static CLEAN: [Step; 13] = [
    (GET_STATUS, APP_IDLE),
    (DETACH, Seen::Ack),
    (Action::Reset, Seen::WasReset),
    (GET_STATUS, DFU_IDLE),
    (BLOCK, Seen::Ack),
    (GET_STATUS, BUSY),
    (Action::Wait(5), Seen::Waited),
    (GET_STATUS, WRITTEN),
    (CLOSE, Seen::Ack),
    (GET_STATUS, MANIFEST),
    (Action::Wait(10), Seen::Waited),
    (GET_STATUS, DFU_IDLE),
    (Action::Reset, Seen::WasReset),
];

#[test]
fn clean_download_takes_thirteen_actions() -> Outcome {
    let file = read(&ALL_ONES)?;
    let mut host = Host::download(&file, &TOLERANT, DEVICE, AMPLE)?;
    follow(&mut host, &CLEAN);
    wants(&host, Action::Done(Report::Installed));
    Ok(())
}

#[test]
fn refusals_come_in_their_order() -> Outcome {
    let mute = descriptor(false, true, 0);
    let narrow = descriptor(true, true, 0);
    let refused = [
        (read(&EMPTY)?, mute, Some(HostFault::EmptyPayload)),
        (read(&FOR_ZERO)?, mute, Some(HostFault::WrongTarget)),
        (read(&NINE)?, mute, Some(HostFault::CannotDownload)),
        (read(&NINE)?, narrow, Some(HostFault::BadDescriptor)),
        (read(&NINE)?, TOLERANT, None),
        (read(&ALL_ONES)?, TOLERANT, None),
    ];
    for (file, functional, fault) in &refused {
        assert_eq!(
            Host::download(file, functional, DEVICE, AMPLE).err(),
            *fault
        );
    }
    Ok(())
}

#[test]
fn block_number_wraps() -> Outcome {
    let bytes = zeros(65_537);
    let file = read(&bytes)?;
    let by_one = descriptor(true, true, 1);
    let mut host = Host::download(&file, &by_one, DEVICE, AMPLE)?;
    host.take(DFU_IDLE);
    for number in 0..65_537u32 {
        let [low, high, _, _] = number.to_le_bytes();
        let setup = [0x21, 1, low, high, 0, 0, 1, 0];
        wants(&host, Action::Send { setup, body: &[0] });
        host.take(Seen::Ack);
        host.take(WRITTEN);
    }
    wants(&host, CLOSE);
    Ok(())
}

/// A carrier with which everything is lost, and how often it was used.
struct Lost {
    used: u32,
}

impl played::Carrier for Lost {
    fn perform(&mut self, _action: Action<'_>) -> Seen<'_> {
        self.used += 1;
        Seen::Nothing
    }
}

#[test]
fn nothing_but_losses_end_by_the_budget() -> Outcome {
    let file = read(&ALL_ONES)?;
    for (actions, uses) in [(0, 1), (1, 1), (9, 9)] {
        let mut host = Host::download(&file, &TOLERANT, DEVICE, limits(actions, 0))?;
        let mut carrier = Lost { used: 0 };
        assert_eq!(play(&mut host, &mut carrier), Report::GaveUp);
        assert_eq!(carrier.used, uses);
    }
    Ok(())
}

#[test]
fn faults_have_their_texts() {
    let rows = [
        (HostFault::EmptyPayload, "the payload is empty"),
        (HostFault::WrongTarget, "the file is for another device"),
        (HostFault::CannotDownload, "the device takes no downloads"),
        (HostFault::CannotUpload, "the device gives no uploads"),
        (HostFault::BadDescriptor, "the device's transfer size is 0"),
    ];
    are_displayed(&rows);
}
