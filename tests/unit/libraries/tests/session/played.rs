//! Hosts that get what was seen, and a session that is played to its end.

use fustrelan::host::{Action, Host, Report, Seen};

/// What carries out the actions of a host.
pub trait Carrier {
    /// Does what a host wants, and says what came of it.
    fn perform(&mut self, action: Action<'_>) -> Seen<'_>;
}

/// Plays a session to its end.
pub fn play<C: Carrier>(host: &mut Host<'_>, carrier: &mut C) -> Report {
    loop {
        match host.next() {
            Action::Done(report) => return report,
            action => host.take(carrier.perform(action)),
        }
    }
}

/// Gives a host all of this, one after the other.
pub fn told(host: &mut Host<'_>, all: &[Seen<'_>]) {
    for seen in all {
        host.take(*seen);
    }
}

/// A host wants this.
pub fn wants(host: &Host<'_>, action: Action<'_>) {
    assert_eq!(host.next(), action);
}

/// A host gets all of this, and then wants this.
pub fn leads(host: &mut Host<'_>, all: &[Seen<'_>], action: Action<'_>) {
    told(host, all);
    wants(host, action);
}

/// A host shows these bytes of an upload.
pub fn shows(host: &Host<'_>, bytes: &[u8]) {
    assert_eq!(host.uploaded(), bytes);
}

/// What a host wants, and what it gets then.
pub type Step = (Action<'static>, Seen<'static>);

/// Goes through a dialogue with a host.
pub fn follow(host: &mut Host<'_>, dialogue: &[Step]) {
    for (action, seen) in dialogue {
        wants(host, *action);
        host.take(*seen);
    }
}
