//! How many bytes of memory a device takes, beside its medium.

use fustrelan::device::Device;
use fustrelan::slots::{SimMedium, Slots};

#[test]
fn a_device_takes_few_bytes_beside_its_medium() {
    let medium = size_of::<SimMedium>();
    assert!(size_of::<Device<SimMedium>>() - medium <= 4_440);
    assert!(size_of::<Slots<SimMedium>>() - medium <= 280);
}
