// Of crates/dfu_conformance/src/dfuse/speaks.rt, whose contracts are taken away.

//! Rows that apply to a DfuSe device, and events at which it may stay in its state.

use crate::conformance::{EventKind, LogEvent, Reading, Response, When};

/// Returns true if a DfuSe device may have the habit `reading`. The set of these habits is 0Fh.
fn is_habit(reading: Reading) -> bool {
    match reading {
        Reading::Bootloader => true,
        Reading::RuntimeMute => true,
        Reading::SelfReset => true,
        Reading::DetachAtOnce => true,
        Reading::DetachLeaves => false,
        Reading::ErrorWithoutCode => false,
    }
}

/// Returns true if a row or move with `when` applies to a DfuSe device. Such a device can download and upload, isn't manifestation tolerant
/// and detaches by itself (bmAttributes 0Bh), and may have the habits Bootloader, RuntimeMute, SelfReset and DetachAtOnce.
pub fn is_of_dfuse(when: When) -> bool {
    match when {
        When::Always => true,
        When::CanDownload => true,
        When::CanUpload => true,
        When::Tolerant => false,
        When::NotTolerant => true,
        When::WillDetach => true,
        When::By(reading) => is_habit(reading),
    }
}

/// Returns true if a device must answer the request of `event`: a GETSTATUS or GETSTATE that is well-formed by section 3 of USB DFU 1.1. A
/// device may stall any other request, and stay in its state.
pub fn is_told(event: &LogEvent) -> bool {
    match event.asked {
        EventKind::GetStatus => event.is_plain,
        EventKind::GetState => event.is_plain,
        _ => false,
    }
}

/// Returns true if a device may stay in its state at `event`: if the log has no answer, or if the device stalled a request that it need not
/// answer.
pub(crate) fn may_dfuse_stay(event: &LogEvent) -> bool {
    match event.answer {
        Response::Nothing => true,
        Response::Stall => !is_told(event),
        Response::Bytes { .. } => false,
    }
}
