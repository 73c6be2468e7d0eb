// Of crates/dfu_conformance/src/row.rt, whose contracts are taken away.

//! Rows of the tables, and the types of their fields.

/// State of a device: one of the standard (USB DFU 1.1, section 6.1.2), or dfuIDLE right after a bus reset.
#[derive(Clone, Copy, Debug, PartialEq, Eq)]
pub enum StandardState {
    /// appIDLE, state 0.
    AppIdle,
    /// appDETACH, state 1.
    AppDetach,
    /// dfuIDLE, state 2.
    DfuIdle,
    /// dfuDNLOAD-SYNC, state 3.
    DownloadSync,
    /// dfuDNBUSY, state 4.
    DownloadBusy,
    /// dfuDNLOAD-IDLE, state 5.
    DownloadIdle,
    /// dfuMANIFEST-SYNC, state 6.
    ManifestSync,
    /// dfuMANIFEST, state 7.
    Manifest,
    /// dfuMANIFEST-WAIT-RESET, state 8.
    ManifestWaitReset,
    /// dfuUPLOAD-IDLE, state 9.
    UploadIdle,
    /// dfuERROR, state 10.
    Error,
    /// dfuIDLE right after a reset, when a second reset may be part of the same enumeration.
    Fresh,
}

impl StandardState {
    /// Returns the index of the state in a list of all twelve, 0 to 11.
    pub fn number(self) -> usize {
        self as usize
    }
}

/// Kind of an event: a request of the class (USB DFU 1.1, section 3), a bus reset, or a return of power.
#[derive(Clone, Copy, Debug, PartialEq, Eq)]
pub enum EventKind {
    /// A DETACH request.
    Detach,
    /// A DNLOAD request whose wLength isn't 0: a block of the image.
    Block,
    /// A DNLOAD request whose wLength is 0: the end of the image.
    Close,
    /// An UPLOAD request.
    Upload,
    /// A GETSTATUS request.
    GetStatus,
    /// A CLRSTATUS request.
    ClrStatus,
    /// A GETSTATE request.
    GetState,
    /// An ABORT request.
    Abort,
    /// Any other request of the class.
    Other,
    /// A reset of the bus.
    Reset,
    /// A loss and return of power.
    Power,
}

impl EventKind {
    /// Returns the index of the kind of event in a list of all eleven, 0 to 10.
    pub(crate) fn number(self) -> usize {
        self as usize
    }
}

/// A habit: a common deviation of devices from the standard. A judge's verdict contains the smallest set of habits with which a device may
/// have given the answers.
#[derive(Clone, Copy, Debug, PartialEq, Eq)]
pub enum Reading {
    /// 0: after a bus reset or a return of power, the device is in dfuIDLE, like a bootloader without an application.
    Bootloader,
    /// 1: in appIDLE and appDETACH, the device stalls GETSTATUS and GETSTATE.
    RuntimeMute,
    /// 2: the device leaves dfuMANIFEST and dfuMANIFEST-WAIT-RESET for appIDLE by itself.
    SelfReset,
    /// 3: DETACH leads from appIDLE to dfuIDLE at once.
    DetachAtOnce,
    /// 4: in dfuIDLE, the device acknowledges DETACH, and enters appIDLE.
    DetachLeaves,
    /// 5: in dfuERROR, GETSTATUS returns the code OK.
    ErrorWithoutCode,
}

/// Devices to which a row applies, according to a bit of bmAttributes (USB DFU 1.1, section 4.1.3) or to a habit.
#[derive(Clone, Copy, Debug, PartialEq, Eq)]
pub enum When {
    /// Every device.
    Always,
    /// Devices whose bitCanDnload is 1.
    CanDownload,
    /// Devices whose bitCanUpload is 1.
    CanUpload,
    /// Devices whose bitManifestationTolerant is 1.
    Tolerant,
    /// Devices whose bitManifestationTolerant is 0.
    NotTolerant,
    /// Devices whose bitWillDetach is 1.
    WillDetach,
    /// Devices with this habit. The standard has no such row.
    By(Reading),
}

/// Answer that a row allows.
#[derive(Clone, Copy, Debug, PartialEq, Eq)]
pub enum Gives {
    /// The device acknowledges, or sends no bytes.
    Ack,
    /// The device stalls.
    Stall,
    /// Six bytes, or as many of them as were requested (section 6.1.2). The code is OK outside dfuERROR, and another one in dfuERROR. The
    /// state is the one that the device enters.
    Status,
    /// Like `Status`, but with the code OK in dfuERROR.
    NoCode,
    /// One byte, or none if none was requested: the state of the device before the request.
    State,
    /// As many bytes of the image as were requested.
    Full,
    /// Fewer bytes of the image than were requested, or none if none were requested.
    Short,
    /// No answer, because a bus reset and a return of power have none.
    Silent,
}

/// Source of a row in the standard.
#[derive(Clone, Copy, Debug, PartialEq, Eq)]
pub enum RuleSource {
    /// Appendix A, in the table of the state in which the row begins. Section 6.1.2 defines the bytes of the answer.
    A,
    /// Appendix A is ambiguous, and each interpretation has a row.
    Open,
    /// The standard has no such row.
    Habit,
}

/// A row of a table: the state of a device, an event, the answer that the device may give, and the state that it enters.
#[derive(Clone, Copy, Debug, PartialEq, Eq)]
pub struct Row {
    /// State of the device before the event.
    pub from: StandardState,
    /// Kind of the event.
    pub asked: EventKind,
    /// Devices to which the row applies.
    pub when: When,
    /// Answer of the device.
    pub gives: Gives,
    /// State of the device after the event.
    pub next: StandardState,
    /// Source of the row in the standard.
    pub source: RuleSource,
}

/// A move that a device makes by itself between two events.
#[derive(Clone, Copy, Debug, PartialEq, Eq)]
pub struct Drift {
    /// State of the device before the move.
    pub from: StandardState,
    /// Devices that may make the move.
    pub when: When,
    /// State of the device after the move.
    pub next: StandardState,
    /// Source of the move in the standard.
    pub source: RuleSource,
}
