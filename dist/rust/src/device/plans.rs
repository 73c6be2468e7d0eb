// Of crates/dfu_device/src/plans.rt, whose contracts are taken away.

//! Decisions that the device table consists of, and the rows of DNLOAD and UPLOAD.

use crate::device::config::Profile;
use crate::device::decision::{Decision, Reply};
use crate::device::device_state::DeviceState;
use crate::wire::Code;

/// Returns the decision that acknowledges the request and enters `mode`.
pub(crate) fn ack(mode: DeviceState) -> Decision {
    Decision::Sure {
        reply: Reply::Ack,
        mode,
    }
}

/// Returns the decision that stalls the request and enters `mode`.
pub(crate) fn stall(mode: DeviceState) -> Decision {
    Decision::Sure {
        reply: Reply::Stall,
        mode,
    }
}

/// Returns the decision that stalls the request and enters dfuERROR with `code`.
pub(crate) fn error(code: Code) -> Decision {
    stall(DeviceState::Error { code })
}

/// Returns the decision that enters `mode` and answers GETSTATUS with its status.
pub(crate) fn report(mode: DeviceState) -> Decision {
    Decision::Sure {
        reply: Reply::Status,
        mode,
    }
}

/// Returns the decision that answers GETSTATE with the state of `mode`, the current mode, and stays in this mode.
pub(crate) fn tell(mode: DeviceState) -> Decision {
    Decision::Sure {
        reply: Reply::State,
        mode,
    }
}

/// Decides on a DNLOAD with wBlockNum `number` and wLength `size`, over 0, after `written` bytes; `expected` is the number of the next
/// block. Checks the errors in their order. A block without errors counts as received, but is not written yet.
fn block(profile: &Profile, written: u32, expected: u16, number: u16, size: u16) -> Decision {
    if size > profile.functional.transfer {
        return error(Code::StalledPkt);
    }
    if number != expected {
        return error(Code::Address);
    }
    if u64::from(written) + u64::from(size) > profile.capacity {
        return error(Code::Address);
    }
    Decision::Holds {
        mode: DeviceState::DownloadSync {
            written,
            number: expected.wrapping_add(1),
        },
    }
}

/// Decides on a DNLOAD with wBlockNum `number` and wLength `size` in dfuIDLE. The first block has number 0.
pub(crate) fn first(profile: &Profile, number: u16, size: u16) -> Decision {
    if !profile.functional.can_download || size == 0 {
        return error(Code::StalledPkt);
    }
    block(profile, 0, 0, number, size)
}

/// Decides on a DNLOAD with wBlockNum `number` and wLength `size` in dfuDNLOAD-IDLE. A wLength of 0 closes the download if the image is
/// long enough.
pub(crate) fn further(
    profile: &Profile,
    written: u32,
    expected: u16,
    number: u16,
    size: u16,
) -> Decision {
    if size > 0 {
        return block(profile, written, expected, number, size);
    }
    if written < profile.least {
        return error(Code::NotDone);
    }
    ack(DeviceState::ManifestSync { written })
}

/// Decides on an UPLOAD with wBlockNum `number` and wLength `size` after `place` bytes were sent; `expected` is the number of the next
/// block. Checks the errors in their order. Without errors the decision sends the next bytes of the image.
pub(crate) fn upload(
    profile: &Profile,
    place: u32,
    expected: u16,
    number: u16,
    size: u16,
) -> Decision {
    if size == 0 || size > profile.functional.transfer {
        return error(Code::StalledPkt);
    }
    if number != expected {
        return error(Code::Address);
    }
    Decision::Sends {
        place,
        size,
        number: expected.wrapping_add(1),
    }
}
