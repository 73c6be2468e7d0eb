// Of crates/dfu_conformance/src/marks.rt, whose contracts are taken away.

//! Rows for a bus reset and for a return of power (USB DFU 1.1, appendix A).

use crate::conformance::EventKind::{Power, Reset};
use crate::conformance::Row;
use crate::conformance::StandardState::{
    AppDetach, AppIdle, DfuIdle, DownloadBusy, DownloadIdle, DownloadSync, Error, Fresh, Manifest,
    ManifestSync, ManifestWaitReset, UploadIdle,
};
use crate::conformance::row::Gives::Silent;
use crate::conformance::row::RuleSource::{A, Open};
use crate::conformance::row::When::Always;

// Expands each line, for one state and a bus reset or a return of power, to a row for each state in which the device may start.
macro_rules! marks {
    ($($from:ident, $asked:ident => $($next:ident)|+, $source:ident;)+) => {
        [$($(row!($from, $asked, Always, Silent, $next, $source),)+)+]
    };
}

/// Rows for a bus reset and a return of power. Each row leads to a state in which the device may be afterwards.
#[rustfmt::skip]
pub static MARKS: [Row; 43] = marks!(
    // After a bus reset, a detaching device is in dfuIDLE, and a second reset doesn't change that. Any other device is in its application,
    // or in dfuERROR if its application is corrupt.
    AppIdle, Reset => AppIdle, A;
    AppDetach, Reset => Fresh, A;
    Fresh, Reset => Fresh, Open;
    DfuIdle, Reset => AppIdle | Error, A;
    DownloadSync, Reset => AppIdle | Error, A;
    DownloadBusy, Reset => AppIdle | Error, A;
    DownloadIdle, Reset => AppIdle | Error, A;
    ManifestSync, Reset => AppIdle | Error, A;
    Manifest, Reset => AppIdle | Error, A;
    ManifestWaitReset, Reset => AppIdle | Error, A;
    UploadIdle, Reset => AppIdle | Error, A;
    Error, Reset => AppIdle | Error, A;
    // After a return of power, the device is in its application, or in dfuERROR if its application is corrupt.
    AppIdle, Power => AppIdle | Error, A;
    AppDetach, Power => AppIdle | Error, A;
    DfuIdle, Power => AppIdle | Error, A;
    DownloadSync, Power => AppIdle | Error, A;
    DownloadBusy, Power => AppIdle | Error, A;
    DownloadIdle, Power => AppIdle | Error, A;
    ManifestSync, Power => AppIdle | Error, A;
    Manifest, Power => AppIdle | Error, A;
    ManifestWaitReset, Power => AppIdle | Error, A;
    UploadIdle, Power => AppIdle | Error, A;
    Error, Power => AppIdle | Error, A;
);
