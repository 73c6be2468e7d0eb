// Of crates/dfu_host/src/report.rt, whose contracts are taken away.

//! Reports with which a session ends.

use crate::wire::Code;

/// Report with which a session ended.
///
/// Only [`Report::Installed`] and [`Report::Verified`] mean that the device has the payload of this session. [`Report::Different`] means
/// that the device returned other bytes, and [`Report::Uploaded`] that it returned an image. After all other reports, the device may have
/// any image.
#[derive(Clone, Copy, Debug, PartialEq, Eq)]
pub enum Report {
    /// A tolerant device received the whole payload, then reported dfuIDLE with OK, and was reset.
    Installed,
    /// A device that isn't tolerant received the whole payload and was reset, or a device left by itself after it received the payload. The
    /// host doesn't know if the image is installed.
    Unconfirmed,
    /// The caller aborted the session.
    Aborted,
    /// The host spent its budget of actions.
    GaveUp,
    /// After a stall, or during the download, the device was in dfuERROR with this code, which is neither OK nor errSTALLEDPKT.
    Refused(Code),
    /// The device was restarted more often than the limits allow.
    RestartsSpent,
    /// All parts of the image arrived; the last is shorter than the transfer size. Only for uploads.
    Uploaded,
    /// 65,535 full parts arrived, more than an upload or a comparison allows.
    TooManyBlocks,
    /// There was no memory for a part of the image. Only for uploads.
    NoMemory,
    /// After the last reset, the device returned the whole payload, and was reset once more. Only for verified downloads.
    Verified,
    /// After the last reset, the device returned other bytes than the payload's. Only for verified downloads.
    Different,
}

impl Report {
    /// Returns the name of the report, such as `installed` or `restarts-spent`. The name of Refused is `refused`,
    /// without its code.
    pub fn name(self) -> &'static str {
        crate::wire::variant_name!(self, Report:
            Installed "installed", Unconfirmed "unconfirmed", Aborted "aborted", GaveUp "gave-up",
            Refused(_) "refused", RestartsSpent "restarts-spent", Uploaded "uploaded",
            TooManyBlocks "too-many-blocks", NoMemory "no-memory", Verified "verified", Different "different"
        )
    }
}
