// Of crates/dfuse_host/src/step.rt, whose contracts are taken away.

//! Steps of a session's work.

/// Next step of a session's work. Times are in milliseconds.
#[derive(Clone, Copy, Debug, PartialEq, Eq)]
pub enum Step {
    /// Send ABORT, which drops a command that was sent but not started, for example by an earlier session. GETSTATUS would start the
    /// command.
    Abort,
    /// Request the device's state with GETSTATE.
    AskState,
    /// Request the status with GETSTATUS, because the state is dfuERROR, dfuDNBUSY, dfuMANIFEST or dfuMANIFEST-WAIT-RESET, or because
    /// GETSTATE was stalled.
    AskStatus,
    /// Wait this long while the session clears the device, because the device is busy or the session requested the status too early.
    ClearWait(u32),
    /// Clear dfuERROR with CLRSTATUS. The error may come from an earlier session.
    ClearStatus,
    /// Send the command.
    Send,
    /// Request the state with GETSTATE to find out if the command arrived, because the device didn't acknowledge it.
    Probe,
    /// Request the status with GETSTATUS, which starts the command and later reports if it is done. The number is the length of the last
    /// wait for the command, and 0 before any wait.
    Poll(u32),
    /// Wait this long because the command isn't done yet, and then poll again.
    PollWait(u32),
    /// Go from dfuDNLOAD-IDLE to dfuIDLE with ABORT, because the device accepts no UPLOAD in dfuDNLOAD-IDLE.
    BeginReading,
    /// Go from dfuUPLOAD-IDLE to dfuIDLE with ABORT, because the device accepts no DNLOAD in dfuUPLOAD-IDLE.
    EndReading,
    /// Read bytes of the image back with UPLOAD.
    Read,
    /// Send the leave request, a DNLOAD without bytes.
    Close,
    /// Request the state with GETSTATE to find out if the leave request arrived, because the device didn't acknowledge it.
    CloseProbe,
    /// Request the status with GETSTATUS to find out if the device leaves.
    ClosePoll,
}
