// Of crates/dfu_conformance/src/dfuse/rows.rt, whose contracts are taken away.

//! Rows that DfuSe adds to the table of USB DFU 1.1.

use crate::conformance::EventKind::{Close, GetState, GetStatus, Reset, Upload};
use crate::conformance::Gives::{Ack, Short, Silent, Stall};
use crate::conformance::Row;
use crate::conformance::RuleSource::{Habit, Open};
use crate::conformance::StandardState::{
    DfuIdle, DownloadBusy, DownloadIdle, DownloadSync, Manifest, ManifestSync, UploadIdle,
};
use crate::conformance::When::Always;

// Expands each line, for one state and one answer, to a row for each of its kinds of event.
macro_rules! rows {
    ($($from:ident, $($asked:ident)|+ => $gives:ident, $next:ident, $source:ident;)+) => {
        [$($(Row {
            from: $from,
            asked: $asked,
            when: Always,
            gives: $gives,
            next: $next,
            source: $source,
        },)+)+]
    };
}

/// Answers that a DfuSe device may give beyond those of USB DFU 1.1. Each row contains the state of the device, the event, the answer, and
/// the state that the device enters. `Habit` marks an answer of every DfuSe device, and `Open` an answer that some devices give and others
/// do not.
#[rustfmt::skip]
pub static DFUSE: [Row; 12] = rows!(
    // A DNLOAD without bytes makes the device leave DFU mode, even from dfuIDLE.
    DfuIdle, Close => Ack, ManifestSync, Habit;
    // The answer to an UPLOAD depends on its block number, so a short answer need not be the last one.
    UploadIdle, Upload => Short, UploadIdle, Open;
    // While the device executes a command or leaves DFU mode, it may stall GETSTATUS and GETSTATE, and stays in its state.
    DownloadBusy, GetStatus | GetState => Stall, DownloadBusy, Open;
    Manifest, GetStatus | GetState => Stall, Manifest, Open;
    // A device may stay in its state at a bus reset.
    DownloadSync, Reset => Silent, DownloadSync, Open;
    DownloadBusy, Reset => Silent, DownloadBusy, Open;
    DownloadIdle, Reset => Silent, DownloadIdle, Open;
    ManifestSync, Reset => Silent, ManifestSync, Open;
    Manifest, Reset => Silent, Manifest, Open;
    UploadIdle, Reset => Silent, UploadIdle, Open;
);
