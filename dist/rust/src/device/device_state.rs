// Of crates/dfu_device/src/device_state.rt, whose contracts are taken away.

//! Mode of a device: its state with the values that the device keeps there, and the status that it reports (USB DFU 1.1, section 6.1.2).

use crate::device::objection::Objection;
use crate::device::time_table::poll_ms;
use crate::device::Config;
use crate::wire::{Code, State, Status};

/// Mode of a device: a state of the standard (USB DFU 1.1, section 6.1.2), with the values that the device keeps only in that state. The
/// slot store and the block that is not written yet are not part of the mode.
///
/// `written` is the number of bytes of a download that were put into the spare slot of the store; `number` is the number of the next block;
/// `passed` is the number of milliseconds that passed in this state.
#[derive(Clone, Copy, Debug, PartialEq, Eq)]
pub enum DeviceState {
    /// appIDLE: the application runs.
    AppIdle,
    /// appDETACH: the device received DETACH. It returns to appIDLE after `timer` milliseconds, at least 1, unless it detaches by itself.
    AppDetach {
        /// The smaller of the DETACH request's wTimeout and the device's wDetachTimeOut, in milliseconds.
        timer: u32,
        /// Milliseconds since the device entered this state.
        passed: u32,
    },
    /// dfuIDLE: no download or upload is in progress.
    DfuIdle,
    /// dfuDNLOAD-SYNC: the device keeps a block that is not written yet.
    DownloadSync {
        /// Number of bytes written before the block.
        written: u32,
        /// Number of the next block.
        number: u16,
    },
    /// dfuDNLOAD-SYNC: the block is written.
    DownloadSyncWritten {
        /// Number of bytes received, 1 or more.
        written: u32,
        /// Number of the next block.
        number: u16,
    },
    /// dfuDNBUSY: the device keeps the block until the busy time has passed, and then writes it.
    DownloadBusy {
        /// Number of bytes written before the block.
        written: u32,
        /// Number of the next block.
        number: u16,
        /// Milliseconds since the device entered this state.
        passed: u32,
    },
    /// dfuDNLOAD-IDLE: the device accepts the next block.
    DownloadIdle {
        /// Number of bytes received, 1 or more.
        written: u32,
        /// Number of the next block.
        number: u16,
    },
    /// dfuMANIFEST-SYNC, not complete: the download is closed, and its image is not active yet.
    ManifestSync {
        /// Number of bytes received, 1 or more.
        written: u32,
    },
    /// dfuMANIFEST-SYNC, complete: the received image is active.
    ManifestSyncComplete,
    /// dfuMANIFEST: the received image becomes active when the manifestation time has passed.
    Manifest {
        /// Number of bytes received, 1 or more.
        written: u32,
        /// Milliseconds since the device entered this state.
        passed: u32,
    },
    /// dfuMANIFEST-WAIT-RESET: the received image is active, and the device waits for a reset.
    ManifestWaitReset,
    /// dfuUPLOAD-IDLE: a part of the image was sent.
    UploadIdle {
        /// Number of bytes of the image that were sent.
        place: u32,
        /// Number of the next block.
        number: u16,
    },
    /// dfuERROR: the status code reports the cause.
    Error {
        code: Code,
    },
}

impl DeviceState {
    /// Returns the state of the standard (USB DFU 1.1, section 6.1.2, bState).
    pub fn state(self) -> State {
        match self {
            DeviceState::AppIdle => State::AppIdle,
            DeviceState::AppDetach { .. } => State::AppDetach,
            DeviceState::DfuIdle => State::DfuIdle,
            DeviceState::DownloadSync { .. } | DeviceState::DownloadSyncWritten { .. } =>
                State::DownloadSync,
            DeviceState::DownloadBusy { .. } => State::DownloadBusy,
            DeviceState::DownloadIdle { .. } => State::DownloadIdle,
            DeviceState::ManifestSync { .. } | DeviceState::ManifestSyncComplete =>
                State::ManifestSync,
            DeviceState::Manifest { .. } => State::Manifest,
            DeviceState::ManifestWaitReset => State::ManifestWaitReset,
            DeviceState::UploadIdle { .. } => State::UploadIdle,
            DeviceState::Error { .. } => State::Error,
        }
    }

    /// Returns the status code: the code of dfuERROR, and OK in every other state (USB DFU 1.1, section 6.1.2, bStatus).
    pub fn code(self) -> Code {
        match self {
            DeviceState::Error { code } => code,
            _ => Code::Ok,
        }
    }

    /// Returns the mode after a reset of the bus.
    pub fn after_reset(self) -> DeviceState {
        match self {
            DeviceState::AppDetach { .. } => DeviceState::DfuIdle,
            _ => DeviceState::AppIdle,
        }
    }

    /// Returns the length of a received image that the program may still refuse, in dfuDNLOAD-IDLE, in dfuMANIFEST-SYNC before
    /// manifestation is complete, and in dfuMANIFEST. Returns None in every other mode.
    pub fn candidate_len(self) -> Option<u32> {
        match self {
            DeviceState::DownloadIdle { written, .. }
            | DeviceState::ManifestSync { written }
            | DeviceState::Manifest { written, .. } => Some(written),
            _ => None,
        }
    }

    /// Returns true if a DNLOAD of no bytes closes the download in this mode: in dfuDNLOAD-IDLE, after at least `least` bytes were
    /// received.
    pub fn may_close(self, least: u32) -> bool {
        match self {
            DeviceState::DownloadIdle { written, .. } => least <= written,
            _ => false,
        }
    }

    /// Returns the mode after the program refuses the image when the host closes the download: dfuERROR with the code of `objection`.
    pub fn after_refused_close(objection: Objection) -> DeviceState {
        DeviceState::Error {
            code: objection.code(),
        }
    }

    /// Returns the mode after the program refuses the image of a closed download. In dfuMANIFEST-SYNC before manifestation is complete, and
    /// in dfuMANIFEST, the result is dfuERROR with the code of `objection`. Every other mode stays the same.
    pub fn after_refusal(self, objection: Objection) -> DeviceState {
        match self {
            DeviceState::ManifestSync { .. } | DeviceState::Manifest { .. } => {
                DeviceState::after_refused_close(objection)
            }
            mode => mode,
        }
    }
}

/// Returns the six bytes of the status of a device with `config` in `mode`, with a block of `block_len` bytes.
pub fn status_in(config: &Config, mode: DeviceState, block_len: usize) -> [u8; 6] {
    let Ok(status) = Status::new(mode.code(), poll_ms(config, mode, block_len), mode.state()) else {
        unreachable!()
    };
    status.encode()
}
