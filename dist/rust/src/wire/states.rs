// Of crates/dfu_wire/src/states.rt, whose contracts are taken away.

//! The states of a device (USB DFU 1.1, section 6.1.2).

use crate::wire::WireFault;

/// State of a device, the value of bState.
#[derive(Clone, Copy, Debug, PartialEq, Eq)]
pub enum State {
    /// 0: the application runs.
    AppIdle,
    /// 1: the application runs, has received DETACH, and waits for a reset.
    AppDetach,
    /// 2: the device is ready for a request of upgrade mode.
    DfuIdle,
    /// 3: the device has received a block and waits for GETSTATUS.
    DownloadSync,
    /// 4: the device is writing a block.
    DownloadBusy,
    /// 5: the device is ready for the next block.
    DownloadIdle,
    /// 6: the device has received the whole image, or its manifestation is complete. The device waits for GETSTATUS.
    ManifestSync,
    /// 7: the manifestation of the new image is in progress.
    Manifest,
    /// 8: the manifestation is complete, and the device waits for a reset.
    ManifestWaitReset,
    /// 9: the device is ready to send the next block of its image.
    UploadIdle,
    /// 10: an error occurred, and the device waits for CLRSTATUS.
    Error,
}

/// Names of the states in the standard, in the order of `State`.
#[rustfmt::skip]
static NAMES: [&str; 11] = [
    "appIDLE", "appDETACH", "dfuIDLE", "dfuDNLOAD-SYNC", "dfuDNBUSY", "dfuDNLOAD-IDLE", "dfuMANIFEST-SYNC",
    "dfuMANIFEST", "dfuMANIFEST-WAIT-RESET", "dfuUPLOAD-IDLE", "dfuERROR",
];

impl State {
    /// Returns the state with number `byte`, or the error `UnknownState` if `byte` is over 10.
    pub fn from_byte(byte: u8) -> Result<State, WireFault> {
        variant_numbered!(byte, WireFault::UnknownState, State:
            0 AppIdle, 1 AppDetach, 2 DfuIdle, 3 DownloadSync, 4 DownloadBusy, 5 DownloadIdle, 6 ManifestSync,
            7 Manifest, 8 ManifestWaitReset, 9 UploadIdle, 10 Error
        )
    }

    /// Returns the number of the state, 0 to 10.
    pub fn byte(self) -> u8 {
        self as u8
    }

    /// Returns the name of the state in the standard, such as `dfuIDLE`.
    pub fn name(self) -> &'static str {
        NAMES[self as usize]
    }
}
