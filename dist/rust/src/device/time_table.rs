// Of crates/dfu_device/src/time_table.rt, whose contracts are taken away.

//! The rows of the device table for elapsed time, as decisions (USB DFU 1.1, appendix A). A call makes at most one transition, and drops
//! the rest of the time. Writing a block or an image takes the time of its erases and programs.

use crate::device::config::{Config, Pace, Profile};
use crate::device::decision::{Decision, Reply};
use crate::device::device_state::DeviceState;
use crate::device::plans::ack;

// Returns the number of sectors that begin in the range of `count` bytes from offset `at`.
fn edges(sector: u32, at: u32, count: u32) -> u32 {
    let behind = at % sector;
    let rest = if behind == 0 { 0 } else { sector - behind };
    if count <= rest {
        return 0;
    }
    (count - rest - 1) / sector + 1
}

// Returns the milliseconds to erase `others` sectors and those that begin in the range of `count` bytes from offset `at`. Without sectors
// the result is 0.
fn erases_ms(pace: Pace, at: u32, count: u32, others: u32) -> u32 {
    if pace.sector == 0 {
        return 0;
    }
    (edges(pace.sector, at, count) + others) * u32::from(pace.erase_ms)
}

// Returns the milliseconds to program `count` bytes, rounded up.
fn programs_ms(pace: Pace, count: u32) -> u32 {
    (count * u32::from(pace.program_ms) + 255) / 256
}

// Returns `base` plus the milliseconds to write `count` bytes from offset `at` of a slot's data and `others` gates and headers. The sum is
// limited to 2^24 - 1, the maximum of bwPollTimeout.
fn writes_ms(pace: Pace, base: u32, at: u32, count: u32, others: u32) -> u32 {
    let erases = erases_ms(pace, at, count, others);
    let programs = programs_ms(pace, count + 256 * others);
    base.saturating_add(erases + programs).min(0xff_ffff)
}

// Returns `base` plus the milliseconds to write a block of `block_len` bytes after `written` bytes.
fn block_ms(pace: Pace, base: u32, written: u32, block_len: usize) -> u32 {
    let unit = pace.unit.size();
    let behind = written % unit;
    let all = behind + block_len.min(4096) as u32;
    let others = if written == 0 { 1 } else { 0 };
    writes_ms(pace, base, written - behind, all - all % unit, others)
}

// Returns `base` plus the milliseconds to make an image of `written` bytes active.
fn image_ms(pace: Pace, base: u32, written: u32) -> u32 {
    let unit = pace.unit.size();
    let behind = written % unit;
    let count = if behind == 0 { 0 } else { unit };
    writes_ms(pace, base, written - behind, count, 2)
}

/// Returns the milliseconds that the host must wait in `mode` with a block of `block_len` bytes (bwPollTimeout).
pub fn poll_ms(config: &Config, mode: DeviceState, block_len: usize) -> u32 {
    match mode {
        DeviceState::DownloadBusy { written, .. } => {
            block_ms(config.pace(), config.busy_ms(), written, block_len)
        }
        DeviceState::Manifest { written, .. } => {
            image_ms(config.pace(), config.manifest_ms(), written)
        }
        _ => 0,
    }
}

// In appDETACH, a device with bitWillDetach enters dfuIDLE once at least 1 ms has passed. Any other device returns to appIDLE after `timer`
// milliseconds. A timer of 0 counts as 1.
fn in_app_detach(profile: &Profile, timer: u32, passed: u32, ms: u32) -> Decision {
    let now = u64::from(passed) + u64::from(ms);
    if ms == 0 {
        ack(DeviceState::AppDetach { timer, passed })
    } else if profile.functional.will_detach {
        ack(DeviceState::DfuIdle)
    } else if now >= u64::from(timer.max(1)) {
        ack(DeviceState::AppIdle)
    } else {
        ack(DeviceState::AppDetach {
            timer,
            passed: now as u32,
        })
    }
}

// In dfuDNBUSY, the block of `block_len` bytes is written once the busy time has passed.
fn in_download_busy(
    profile: &Profile,
    written: u32,
    number: u16,
    passed: u32,
    block_len: usize,
    ms: u32,
) -> Decision {
    let now = u64::from(passed) + u64::from(ms);
    let limit = block_ms(profile.pace, profile.busy_ms, written, block_len);
    if ms > 0 && now >= u64::from(limit) {
        return Decision::Writes {
            reply: Reply::Ack,
            written,
            number,
            late: true,
        };
    }
    ack(DeviceState::DownloadBusy {
        written,
        number,
        passed: now as u32,
    })
}

// In dfuMANIFEST, the image becomes active once the manifestation time has passed. A device that is not tolerant of manifestation then
// waits for a reset.
fn in_manifest(profile: &Profile, written: u32, passed: u32, ms: u32) -> Decision {
    let now = u64::from(passed) + u64::from(ms);
    let limit = image_ms(profile.pace, profile.manifest_ms, written);
    if ms > 0 && now >= u64::from(limit) {
        let mode = if profile.functional.tolerant {
            DeviceState::ManifestSyncComplete
        } else {
            DeviceState::ManifestWaitReset
        };
        return Decision::Commits {
            reply: Reply::Ack,
            written,
            mode,
        };
    }
    ack(DeviceState::Manifest {
        written,
        passed: now as u32,
    })
}

/// Returns the table's decision for `ms` milliseconds that elapse in `mode` with a block of `block_len` bytes. In modes other than
/// appDETACH, dfuDNBUSY and dfuMANIFEST, elapsed time changes nothing.
pub fn decide_time(profile: &Profile, mode: DeviceState, block_len: usize, ms: u32) -> Decision {
    match mode {
        DeviceState::AppDetach { timer, passed } => in_app_detach(profile, timer, passed, ms),
        DeviceState::DownloadBusy {
            written,
            number,
            passed,
        } => in_download_busy(profile, written, number, passed, block_len, ms),
        DeviceState::Manifest { written, passed } => in_manifest(profile, written, passed, ms),
        mode => ack(mode),
    }
}
