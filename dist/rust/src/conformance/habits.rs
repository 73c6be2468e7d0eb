// Of crates/dfu_conformance/src/habits.rt, whose contracts are taken away.

//! Habits: common deviations of devices from the standard.

use crate::conformance::EventKind::{Detach, GetState, GetStatus, Power, Reset};
use crate::conformance::Reading::{Bootloader, DetachAtOnce, DetachLeaves, ErrorWithoutCode, RuntimeMute};
use crate::conformance::Row;
use crate::conformance::StandardState::{
    AppDetach, AppIdle, DfuIdle, DownloadBusy, DownloadIdle, DownloadSync, Error, Fresh, Manifest,
    ManifestSync, ManifestWaitReset, UploadIdle,
};
use crate::conformance::row::Gives::{Ack, NoCode, Silent, Stall};
use crate::conformance::row::RuleSource::Habit;
use crate::conformance::row::When::By;

/// Rows that habits add to the table of the standard. SelfReset adds moves instead, which are in `DRIFTS`.
#[rustfmt::skip]
pub static HABITS: [Row; 28] = [
    // Bootloader: the device is in dfuIDLE after a bus reset and after a return of power.
    row!(AppIdle, Reset, By(Bootloader), Silent, Fresh, Habit),
    row!(DfuIdle, Reset, By(Bootloader), Silent, Fresh, Habit),
    row!(DownloadSync, Reset, By(Bootloader), Silent, Fresh, Habit),
    row!(DownloadBusy, Reset, By(Bootloader), Silent, Fresh, Habit),
    row!(DownloadIdle, Reset, By(Bootloader), Silent, Fresh, Habit),
    row!(ManifestSync, Reset, By(Bootloader), Silent, Fresh, Habit),
    row!(Manifest, Reset, By(Bootloader), Silent, Fresh, Habit),
    row!(ManifestWaitReset, Reset, By(Bootloader), Silent, Fresh, Habit),
    row!(UploadIdle, Reset, By(Bootloader), Silent, Fresh, Habit),
    row!(Error, Reset, By(Bootloader), Silent, Fresh, Habit),
    row!(AppIdle, Power, By(Bootloader), Silent, Fresh, Habit),
    row!(AppDetach, Power, By(Bootloader), Silent, Fresh, Habit),
    row!(DfuIdle, Power, By(Bootloader), Silent, Fresh, Habit),
    row!(DownloadSync, Power, By(Bootloader), Silent, Fresh, Habit),
    row!(DownloadBusy, Power, By(Bootloader), Silent, Fresh, Habit),
    row!(DownloadIdle, Power, By(Bootloader), Silent, Fresh, Habit),
    row!(ManifestSync, Power, By(Bootloader), Silent, Fresh, Habit),
    row!(Manifest, Power, By(Bootloader), Silent, Fresh, Habit),
    row!(ManifestWaitReset, Power, By(Bootloader), Silent, Fresh, Habit),
    row!(UploadIdle, Power, By(Bootloader), Silent, Fresh, Habit),
    row!(Error, Power, By(Bootloader), Silent, Fresh, Habit),
    // RuntimeMute: the application stalls GETSTATUS and GETSTATE.
    row!(AppIdle, GetStatus, By(RuntimeMute), Stall, AppIdle, Habit),
    row!(AppIdle, GetState, By(RuntimeMute), Stall, AppIdle, Habit),
    row!(AppDetach, GetStatus, By(RuntimeMute), Stall, AppDetach, Habit),
    row!(AppDetach, GetState, By(RuntimeMute), Stall, AppDetach, Habit),
    // DetachAtOnce: DETACH leads to dfuIDLE without a reset.
    row!(AppIdle, Detach, By(DetachAtOnce), Ack, DfuIdle, Habit),
    // DetachLeaves: DETACH leads from dfuIDLE to the application.
    row!(DfuIdle, Detach, By(DetachLeaves), Ack, AppIdle, Habit),
    // ErrorWithoutCode: GETSTATUS returns the code OK in dfuERROR.
    row!(Error, GetStatus, By(ErrorWithoutCode), NoCode, Error, Habit),
];
