//! A device stack with a host at the other end of its cable.

use dfu::callers::{Happened, Transfer, UsbDevice};
use fustrelan::host::{Action, Host, Report, Seen};

/// A device stack with a host in its session at the other end of the cable.
pub(crate) struct Seat<'f> {
    host: Host<'f>,
}

impl<'f> Seat<'f> {
    pub(crate) fn with(host: Host<'f>) -> Seat<'f> {
        Seat { host }
    }

    /// The report of the session, once it is over.
    pub(crate) fn report(&self) -> Option<Report> {
        match self.host.next() {
            Action::Done(report) => Some(report),
            _ => None,
        }
    }
}

impl UsbDevice for Seat<'_> {
    fn wait(&mut self, transfer: &mut Transfer) -> Happened {
        transfer.body.clear();
        match self.host.next() {
            Action::Send { setup, body } => {
                transfer.setup = setup;
                let _ = transfer.body.try_extend_from_slice(body);
                Happened::Transfer
            }
            Action::Wait(ms) => {
                self.host.take(Seen::Waited);
                Happened::Tick(ms)
            }
            Action::Reset => {
                self.host.take(Seen::WasReset);
                Happened::BusReset
            }
            Action::Done(_) => Happened::BusReset,
        }
    }

    fn acknowledge(&mut self) {
        self.host.take(Seen::Ack);
    }

    fn send(&mut self, bytes: &[u8]) {
        self.host.take(Seen::Bytes(bytes));
    }

    fn stall(&mut self) {
        self.host.take(Seen::Stall);
    }
}
