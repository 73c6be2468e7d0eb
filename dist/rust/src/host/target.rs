// Of crates/dfu_host/src/target.rt, whose contracts are taken away.

//! Match between a file's identifiers and a device's.

use crate::wire::Ids;

/// Vendor or product in a file that is for the devices of every vendor or with every product.
const ANY: u16 = 0xffff;

/// Returns true if a file with the identifiers `file` is for `device`: its vendor is the device's or FFFFh, and so is its product.
pub(crate) fn is_for(file: Ids, device: Ids) -> bool {
    goes_with(file.vendor, device.vendor) && goes_with(file.product, device.product)
}

/// Returns true if `file`, an identifier from a file, is FFFFh or equals `device`, the device's identifier.
fn goes_with(file: u16, device: u16) -> bool {
    file == ANY || file == device
}
