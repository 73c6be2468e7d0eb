//! Power that goes and comes back.

use fustrelan::device::Device;
use fustrelan::slots::Medium;

/// Power goes and comes back. That is never refused: the medium of a device has an active image. What was put after it is forgotten.
pub fn restarted<M: Medium>(device: Device<M>) -> Device<M> {
    let config = device.config();
    match Device::power_on(config, device.into_medium()) {
        Ok(device) => device,
        Err(_) => panic!("a device's medium has an image"),
    }
}
