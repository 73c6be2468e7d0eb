// Of crates/dfu_conformance/src/drifts.rt, whose contracts are taken away.

//! Moves that a device makes by itself, between two events (USB DFU 1.1, appendix A).

use crate::conformance::Drift;
use crate::conformance::Reading::SelfReset;
use crate::conformance::StandardState::{
    AppDetach, AppIdle, DfuIdle, DownloadBusy, DownloadSync, Error, Fresh, Manifest, ManifestSync,
    ManifestWaitReset,
};
use crate::conformance::row::RuleSource::{A, Habit};
use crate::conformance::row::When::{Always, By, NotTolerant, Tolerant, WillDetach};

/// Moves that a device makes by itself: its enumeration ends, a timer expires, the device detaches, or writing a block or the image
/// succeeds or fails. One move reaches every state that two moves in sequence reach.
#[rustfmt::skip]
pub static DRIFTS: [Drift; 12] = [
    drift!(Fresh, Always, DfuIdle, A),
    drift!(AppDetach, Always, AppIdle, A),
    drift!(AppDetach, WillDetach, DfuIdle, A),
    drift!(DownloadSync, Always, Error, A),
    drift!(DownloadBusy, Always, DownloadSync, A),
    drift!(DownloadBusy, Always, Error, A),
    drift!(ManifestSync, Always, Error, A),
    drift!(Manifest, Tolerant, ManifestSync, A),
    drift!(Manifest, NotTolerant, ManifestWaitReset, A),
    drift!(Manifest, Always, Error, A),
    drift!(Manifest, By(SelfReset), AppIdle, Habit),
    drift!(ManifestWaitReset, By(SelfReset), AppIdle, Habit),
];
