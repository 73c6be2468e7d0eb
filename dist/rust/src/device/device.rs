// Of crates/dfu_device/src/device.rt, whose contracts are taken away.

//! A device, as a bootloader runs it.

use crate::device::device_core::DeviceCore;
use crate::device::device_state::DeviceState;
use crate::device::{Answer, Config};
use arrayvec::ArrayVec;
use crate::slots::{Faulty, Medium, OpenFault, Slots};
use crate::wire::{Code, Functional, Ids, State};

/// A device: its configuration, its slot store, and its state with the values that it keeps there.
///
/// No call allocates memory, and only `power_on` can fail. A bootloader reports each event to the device, and passes each answer to the
/// USB stack:
///
/// ```text
/// match happened {
///     Happened::BusReset => device.usb_reset(),
///     Happened::Transfer(setup, body) => match device.handle(&setup, body, &mut out) {
///         Answer::Ack => usb.acknowledge(),
///         Answer::Bytes => usb.send(&out),
///         Answer::Stall => usb.stall(),
///     },
///     Happened::Tick(ms) => device.elapse(ms),
/// }
/// let state = device.state(); // determines which program runs now
/// ```
///
/// - A transfer is a control transfer to the DFU interface. If the host sends, `body` is its whole data stage, wLength bytes; if the host
///   reads, `body` is empty. The USB stack must therefore receive the data stage before it calls `handle`. A transfer
///   with a body that is cut short is stalled and changes nothing.
/// - After `Ack` the bootloader completes the status stage. After `Bytes` it sends the bytes in `out` as the data stage, which may be
///   empty. After `Stall` it stalls endpoint 0, and the device continues in the state that it has after the call.
/// - The bootloader reports time as it passes, for example at each tick of a timer, with the milliseconds since the last call. Elapsed
///   time has an effect only in appDETACH, dfuDNBUSY and dfuMANIFEST, so other states need no call. The device writes the medium within
///   the call at which the busy or manifestation time ends. If that time is 0, it writes within the `handle` that answers GETSTATUS.
/// - A reset of the bus must be reported only once per enumeration, because a reset in dfuIDLE ends the upgrade mode. At power-on a device
///   begins in appIDLE; a bootloader that must begin in dfuIDLE passes a DETACH and a reset to the device itself.
/// - The state determines which program runs: the application in appIDLE and appDETACH, otherwise the upgrade. A device with bitWillDetach
///   goes from appDETACH to dfuIDLE at a tick, and the bootloader must then detach it from the bus. In dfuMANIFEST-WAIT-RESET the device
///   waits until the bootloader or the host resets it.
#[derive(Debug, PartialEq, Eq)]
pub struct Device<M: Medium> {
    // The core keeps the invariant of the fields. The contracts of `Device` show only the value `DeviceView` to a caller.
    pub(crate) core: DeviceCore<M>,
}

impl<M: Medium> Device<M> {
    /// Returns a device with `config` in appIDLE, on `slots`.
    pub fn start(config: Config, slots: Slots<M>) -> Device<M> {
        Device {
            core: DeviceCore::start(config, slots, ArrayVec::new()),
        }
    }

    /// Powers a device on: it opens `medium`, writes nothing, and begins in appIDLE.
    ///
    /// # Errors
    ///
    /// The first fault of the medium, with the unchanged medium. A medium is refused exactly if it has no active image. The faults are
    /// checked in this order; a slot counts if its gate is open and, if its header is of version 2, that header is well formed:
    ///
    /// 1. `WrongSize`: the medium's length is not 2 * (2 * G + C), with C from 1 to 16,777,216 and a multiple of the unit's size and the
    ///    sector's, and G the largest of 16, the unit's size and the sector's; or the store doesn't support the sector size.
    /// 2. `NoImage`: neither slot counts.
    /// 3. `TwoImages`: both slots count, and neither generation is the other's plus 1 modulo 256.
    /// 4. `BadHeader`: the active slot's header is not well formed.
    pub fn power_on(config: Config, medium: M) -> Result<Device<M>, (OpenFault, M)> {
        let slots = Slots::open(medium)?;
        Ok(Device::start(config, slots))
    }

    /// Cycles the power: the device begins again in appIDLE, on its unchanged medium. Passing the result of `into_medium` to `power_on` has
    /// the same effect, but a restart never fails.
    pub fn restart(&mut self) {
        self.core.mode = DeviceState::AppIdle;
        self.core.slots.reopen();
    }

    /// Answers a setup packet with its data stage `body` (USB DFU 1.1, appendix A). The call first empties `out`. If the answer is `Bytes`,
    /// `out` then contains the bytes of the answer, at most wLength.
    pub fn handle(&mut self, setup: &[u8; 8], body: &[u8], out: &mut ArrayVec<u8, 4096>) -> Answer {
        self.core.handle(setup, body, out)
    }

    /// Reports that `ms` milliseconds passed; 0 changes nothing. Elapsed time has an effect only in appDETACH, dfuDNBUSY and dfuMANIFEST,
    /// where it adds up from the moment the device entered the state (USB DFU 1.1, appendix A). A call makes at most one transition, and
    /// time left over is dropped. In every other state the call changes nothing, and may be omitted.
    pub fn elapse(&mut self, ms: u32) {
        self.core.elapse(ms);
    }

    /// Reports a reset of the bus: appDETACH goes to dfuIDLE, every other state to appIDLE (USB DFU 1.1, appendix A).
    pub fn usb_reset(&mut self) {
        self.core.mode = self.core.mode.after_reset();
    }

    /// Returns the state of the device (USB DFU 1.1, section 6.1.2, bState).
    pub fn state(&self) -> State {
        self.core.mode.state()
    }

    /// Returns the status code: the code of dfuERROR, and OK in every other state (USB DFU 1.1, section 6.1.2, bStatus).
    pub fn code(&self) -> Code {
        self.core.mode.code()
    }

    /// Returns the functional descriptor (USB DFU 1.1, section 4.1.3), with version 0110h.
    pub fn functional(&self) -> Functional {
        self.core.config.functional()
    }

    /// Returns the vendor, product and release numbers of the device.
    pub fn ids(&self) -> Ids {
        self.core.config.ids()
    }

    /// Returns the configuration that the device was made with.
    pub fn config(&self) -> Config {
        self.core.config
    }

    /// Returns the slot store. During a download the data of its spare slot begins with the bytes received, except for a block that is not
    /// written yet. The last received bytes may still be in memory: if the medium's unit is over 1 byte, `Slots::held` holds them back
    /// until their unit is full.
    pub fn slots(&self) -> &Slots<M> {
        &self.core.slots
    }

    /// Powers the device off and returns the unchanged medium. The medium has an active image, so `power_on` never refuses it.
    pub fn into_medium(self) -> M {
        self.core.slots.into_medium()
    }
}

impl<M: Faulty> Device<M> {
    /// Arms the medium to fail, as `Slots::arm` does.
    pub fn arm(&mut self, writes: u32, tear: &[u8], stop: bool) {
        self.core.slots.arm(writes, tear, stop);
    }

    /// Arms the medium to lie, as `Slots::arm_lie` does.
    pub fn arm_lie(&mut self, writes: u32, tear: &[u8]) {
        self.core.slots.arm_lie(writes, tear);
    }

    /// Disarms the medium, as `Slots::disarm` does: no later write fails or lies.
    pub fn disarm(&mut self) {
        self.core.slots.disarm();
    }
}
