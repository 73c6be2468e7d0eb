// Of crates/dfu_wire/src/ids.rt, whose contracts are taken away.

//! The three numbers that identify a device.

/// Identifiers of a device, which its device descriptor and the suffix of a file contain (USB DFU 1.1, appendix B). FFFFh in a field of a
/// suffix means that the file doesn't specify it.
#[derive(Clone, Copy, Debug, PartialEq, Eq)]
pub struct Ids {
    /// bcdDevice: release number of the device.
    pub device: u16,
    /// idProduct: number of the product.
    pub product: u16,
    /// idVendor: number of the vendor.
    pub vendor: u16,
}
