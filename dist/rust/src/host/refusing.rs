// Of crates/dfu_host/src/refusing.rt, whose contracts are taken away.

//! The checks that several kinds of sessions share.

use crate::host::fault::HostFault;
use crate::host::goal::Goal;
use crate::host::target::is_for;
use crate::suffix::File;
use crate::wire::{Functional, Ids};

/// Returns the goal of a session that installs a file, and also compares it if `compares` is true. Fails with the first fault that holds.
pub(crate) fn goal_to_install<'f>(
    file: &File<'f>,
    functional: &Functional,
    device: Ids,
    compares: bool,
) -> Result<Goal<'f>, HostFault> {
    let payload = payload_for(file, functional, device)?;
    if compares {
        gives_uploads(functional)?;
        return Ok(Goal::Verify(payload));
    }
    if functional.transfer == 0 {
        return Err(HostFault::BadDescriptor);
    }
    Ok(Goal::Load(payload))
}

/// Returns the payload of the file, or the first fault that prevents its install on the device.
fn payload_for<'f>(
    file: &File<'f>,
    functional: &Functional,
    device: Ids,
) -> Result<&'f [u8], HostFault> {
    let payload = file.payload();
    if payload.is_empty() {
        Err(HostFault::EmptyPayload)
    } else if !is_for(file.ids(), device) {
        Err(HostFault::WrongTarget)
    } else if !functional.can_download {
        Err(HostFault::CannotDownload)
    } else {
        Ok(payload)
    }
}

/// Fails with the first fault that prevents an upload from the device.
pub(crate) fn gives_uploads(functional: &Functional) -> Result<(), HostFault> {
    if !functional.can_upload {
        Err(HostFault::CannotUpload)
    } else if functional.transfer == 0 {
        Err(HostFault::BadDescriptor)
    } else {
        Ok(())
    }
}
