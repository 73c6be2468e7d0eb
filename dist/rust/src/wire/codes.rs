// Of crates/dfu_wire/src/codes.rt, whose contracts are taken away.

//! The status codes of a device (USB DFU 1.1, section 6.1.2).

use crate::wire::WireFault;

/// Status code, the value of bStatus.
#[derive(Clone, Copy, Debug, PartialEq, Eq)]
pub enum Code {
    /// 00h: no error.
    Ok,
    /// 01h: the file is not for this device.
    Target,
    /// 02h: the file fails a vendor-specific verification test.
    File,
    /// 03h: a block could not be written.
    Write,
    /// 04h: the memory could not be erased.
    Erase,
    /// 05h: a check found memory that is not erased.
    CheckErased,
    /// 06h: the memory could not be programmed.
    Prog,
    /// 07h: the programmed memory failed verification.
    Verify,
    /// 08h: the address of a block is out of range.
    Address,
    /// 09h: the host ended the download, but the device expects more data.
    NotDone,
    /// 0Ah: the application is corrupt, so the device stays in upgrade mode.
    Firmware,
    /// 0Bh: a vendor-specific error.
    Vendor,
    /// 0Ch: an unexpected reset of the bus.
    Usbr,
    /// 0Dh: an unexpected power-on reset.
    Por,
    /// 0Eh: an error of unknown cause.
    Unknown,
    /// 0Fh: the device stalled a request that its state doesn't allow.
    StalledPkt,
}

/// Names of the codes in the standard, in the order of `Code`.
#[rustfmt::skip]
static NAMES: [&str; 16] = [
    "OK", "errTARGET", "errFILE", "errWRITE", "errERASE", "errCHECK_ERASED", "errPROG", "errVERIFY", "errADDRESS",
    "errNOTDONE", "errFIRMWARE", "errVENDOR", "errUSBR", "errPOR", "errUNKNOWN", "errSTALLEDPKT",
];

impl Code {
    /// Returns the code with number `byte`, or the error `UnknownCode` if `byte` is over 15.
    pub fn from_byte(byte: u8) -> Result<Code, WireFault> {
        variant_numbered!(byte, WireFault::UnknownCode, Code:
            0 Ok, 1 Target, 2 File, 3 Write, 4 Erase, 5 CheckErased, 6 Prog, 7 Verify, 8 Address, 9 NotDone,
            10 Firmware, 11 Vendor, 12 Usbr, 13 Por, 14 Unknown, 15 StalledPkt
        )
    }

    /// Returns the number of the code, 0 to 15.
    pub fn byte(self) -> u8 {
        self as u8
    }

    /// Returns the name of the code in the standard, such as `errWRITE`.
    pub fn name(self) -> &'static str {
        NAMES[self as usize]
    }
}
