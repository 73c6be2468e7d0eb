// Of crates/dfu_device/src/table.rt, whose contracts are taken away.

//! The device table as a function: its decision on a request depends only on the mode of a device and its fixed settings, and changes
//! nothing (USB DFU 1.1, appendix A). `crates/dfu_device/specs/Table.antt` defines the same rows. The first functions below check if a request has a row in
//! the table.

use crate::device::config::Profile;
use crate::device::decision::{Decision, Reply};
use crate::device::device_state::DeviceState;
use crate::device::plans::{ack, error, first, further, report, stall, tell, upload};
use crate::wire::{Code, Request, Setup};

// Returns wLength of a GETSTATUS or GETSTATE, and 0 for any other request.
fn asked_length(request: Request) -> u16 {
    match request {
        Request::GetStatus { length } | Request::GetState { length } => length,
        _ => 0,
    }
}

// Returns true if the length of a body matches its setup packet: wLength if bmRequestType is 21h, because the host then sends, otherwise 0.
fn goes_with(setup: &Setup, body: &[u8]) -> bool {
    let len = if setup.kind == 0x21 {
        setup.length as usize
    } else {
        0
    };
    body.len() == len
}

// Returns true if a request has a row in the table: it is one of the DFU class, and its body matches the setup packet.
fn is_served(setup: &Setup, request: Request, body: &[u8]) -> bool {
    match request {
        Request::NotDfu => false,
        _ => goes_with(setup, body),
    }
}

// In appIDLE, DETACH starts the timer of appDETACH: the smaller of the host's timeout and the device's.
fn in_app_idle(profile: &Profile, request: Request) -> Decision {
    match request {
        Request::Detach { timeout } => ack(DeviceState::AppDetach {
            timer: u32::from(profile.functional.detach_ms.min(timeout)),
            passed: 0,
        }),
        Request::GetStatus { .. } => report(DeviceState::AppIdle),
        Request::GetState { .. } => tell(DeviceState::AppIdle),
        _ => stall(DeviceState::AppIdle),
    }
}

// In appDETACH, any request other than GETSTATUS and GETSTATE, even a second DETACH, is stalled and leads back to appIDLE.
fn in_app_detach(timer: u32, passed: u32, request: Request) -> Decision {
    match request {
        Request::GetStatus { .. } => report(DeviceState::AppDetach { timer, passed }),
        Request::GetState { .. } => tell(DeviceState::AppDetach { timer, passed }),
        _ => stall(DeviceState::AppIdle),
    }
}

// In dfuIDLE, a device without support for uploads stalls UPLOAD as it stalls any other request, and a device without support for downloads
// stalls DNLOAD.
fn in_dfu_idle(profile: &Profile, request: Request) -> Decision {
    match request {
        Request::Dnload { block, length } => first(profile, block, length),
        Request::Upload { block, length } if profile.functional.can_upload => {
            upload(profile, 0, 0, block, length)
        }
        Request::Abort => ack(DeviceState::DfuIdle),
        Request::GetStatus { .. } => report(DeviceState::DfuIdle),
        Request::GetState { .. } => tell(DeviceState::DfuIdle),
        _ => error(Code::StalledPkt),
    }
}

// In dfuDNLOAD-SYNC with an unwritten block, the device writes the block on GETSTATUS if the busy time is 0.
fn in_download_sync(profile: &Profile, written: u32, number: u16, request: Request) -> Decision {
    match request {
        Request::GetStatus { .. } if profile.busy_ms == 0 => Decision::Writes {
            reply: Reply::Status,
            written,
            number,
            late: false,
        },
        Request::GetStatus { .. } => report(DeviceState::DownloadBusy {
            written,
            number,
            passed: 0,
        }),
        Request::GetState { .. } => tell(DeviceState::DownloadSync { written, number }),
        _ => error(Code::StalledPkt),
    }
}

// In dfuDNLOAD-SYNC with a written block, GETSTATUS leads to dfuDNLOAD-IDLE.
fn in_download_sync_written(written: u32, number: u16, request: Request) -> Decision {
    match request {
        Request::GetStatus { .. } => report(DeviceState::DownloadIdle { written, number }),
        Request::GetState { .. } => tell(DeviceState::DownloadSyncWritten { written, number }),
        _ => error(Code::StalledPkt),
    }
}

// In dfuDNLOAD-IDLE, DNLOAD sends the next block or closes the download, and ABORT cancels the download.
fn in_download_idle(profile: &Profile, written: u32, number: u16, request: Request) -> Decision {
    match request {
        Request::Dnload { block, length } => further(profile, written, number, block, length),
        Request::Abort => ack(DeviceState::DfuIdle),
        Request::GetStatus { .. } => report(DeviceState::DownloadIdle { written, number }),
        Request::GetState { .. } => tell(DeviceState::DownloadIdle { written, number }),
        _ => error(Code::StalledPkt),
    }
}

// In dfuMANIFEST-SYNC before manifestation, the image becomes active on GETSTATUS if the manifestation time is 0.
fn in_manifest_sync(profile: &Profile, written: u32, request: Request) -> Decision {
    match request {
        Request::GetStatus { .. } if profile.manifest_ms == 0 => Decision::Commits {
            reply: Reply::Status,
            written,
            mode: DeviceState::DfuIdle,
        },
        Request::GetStatus { .. } => report(DeviceState::Manifest { written, passed: 0 }),
        Request::GetState { .. } => tell(DeviceState::ManifestSync { written }),
        _ => error(Code::StalledPkt),
    }
}

// In dfuMANIFEST-SYNC after manifestation, GETSTATUS leads to dfuIDLE.
fn in_manifest_sync_complete(request: Request) -> Decision {
    match request {
        Request::GetStatus { .. } => report(DeviceState::DfuIdle),
        Request::GetState { .. } => tell(DeviceState::ManifestSyncComplete),
        _ => error(Code::StalledPkt),
    }
}

// In dfuUPLOAD-IDLE, UPLOAD requests the next bytes of the image, and ABORT ends the upload.
fn in_upload_idle(profile: &Profile, place: u32, number: u16, request: Request) -> Decision {
    match request {
        Request::Upload { block, length } => upload(profile, place, number, block, length),
        Request::Abort => ack(DeviceState::DfuIdle),
        Request::GetStatus { .. } => report(DeviceState::UploadIdle { place, number }),
        Request::GetState { .. } => tell(DeviceState::UploadIdle { place, number }),
        _ => error(Code::StalledPkt),
    }
}

// In dfuERROR, CLRSTATUS leads to dfuIDLE. GETSTATUS and GETSTATE don't change the state. Any other request is stalled.
fn in_error(code: Code, request: Request) -> Decision {
    match request {
        Request::ClrStatus => ack(DeviceState::DfuIdle),
        Request::GetStatus { .. } => report(DeviceState::Error { code }),
        Request::GetState { .. } => tell(DeviceState::Error { code }),
        _ => stall(DeviceState::Error { code }),
    }
}

/// Returns the table's decision on `request`, a request of the DFU class, in `mode`. The body of a DNLOAD must have wLength bytes.
///
/// In dfuDNBUSY and dfuMANIFEST every request leads to dfuERROR, even GETSTATUS, and nothing is written. In dfuMANIFEST-WAIT-RESET every
/// request is stalled, and the device stays in that state.
#[rustfmt::skip]
pub fn decide(profile: &Profile, mode: DeviceState, request: Request) -> Decision {
    match mode {
        DeviceState::AppIdle => in_app_idle(profile, request),
        DeviceState::AppDetach { timer, passed } => in_app_detach(timer, passed, request),
        DeviceState::DfuIdle => in_dfu_idle(profile, request),
        DeviceState::DownloadSync { written, number } => in_download_sync(profile, written, number, request),
        DeviceState::DownloadSyncWritten { written, number } => in_download_sync_written(written, number, request),
        DeviceState::DownloadBusy { .. } => error(Code::StalledPkt),
        DeviceState::DownloadIdle { written, number } => in_download_idle(profile, written, number, request),
        DeviceState::ManifestSync { written } => in_manifest_sync(profile, written, request),
        DeviceState::ManifestSyncComplete => in_manifest_sync_complete(request),
        DeviceState::Manifest { .. } => error(Code::StalledPkt),
        DeviceState::ManifestWaitReset => stall(DeviceState::ManifestWaitReset),
        DeviceState::UploadIdle { place, number } => in_upload_idle(profile, place, number, request),
        DeviceState::Error { code } => in_error(code, request),
    }
}

/// Returns the decision on `setup` with its `body` in `mode`, and wLength if the request is GETSTATUS or GETSTATE, otherwise 0. A request
/// is stalled and changes nothing if it is not a DFU class request for interface 0, or if the length of its body is wrong. For any other
/// request the decision is that of its row in the table (USB DFU 1.1, section 3 and appendix A).
pub fn asked_row(
    profile: &Profile,
    mode: DeviceState,
    setup: &[u8; 8],
    body: &[u8],
) -> (Decision, u16) {
    let setup = Setup::decode(setup);
    let request = setup.request();
    let asked = asked_length(request);
    if !is_served(&setup, request, body) {
        return (stall(mode), asked);
    }
    (decide(profile, mode, request), asked)
}
