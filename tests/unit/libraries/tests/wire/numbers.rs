//! The standard's numbers and names of states and codes.

use fustrelan::wire::{Code, State, WireFault, identifier};

static STATE_NAMES: [&str; 11] = [
    "appIDLE",
    "appDETACH",
    "dfuIDLE",
    "dfuDNLOAD-SYNC",
    "dfuDNBUSY",
    "dfuDNLOAD-IDLE",
    "dfuMANIFEST-SYNC",
    "dfuMANIFEST",
    "dfuMANIFEST-WAIT-RESET",
    "dfuUPLOAD-IDLE",
    "dfuERROR",
];

static CODE_NAMES: [&str; 16] = [
    "OK",
    "errTARGET",
    "errFILE",
    "errWRITE",
    "errERASE",
    "errCHECK_ERASED",
    "errPROG",
    "errVERIFY",
    "errADDRESS",
    "errNOTDONE",
    "errFIRMWARE",
    "errVENDOR",
    "errUSBR",
    "errPOR",
    "errUNKNOWN",
    "errSTALLEDPKT",
];

/// A byte and its name, or the fault if it has none.
fn named(
    names: &[&'static str],
    byte: u8,
    fault: WireFault,
) -> Result<(u8, &'static str), WireFault> {
    match names.get(usize::from(byte)) {
        Some(name) => Ok((byte, *name)),
        None => Err(fault),
    }
}

#[test]
fn every_byte_is_a_state_or_none() {
    for byte in 0..=255 {
        let read = State::from_byte(byte).map(|state| (state.byte(), state.name()));
        assert_eq!(read, named(&STATE_NAMES, byte, WireFault::UnknownState));
    }
}

#[test]
fn every_byte_is_a_code_or_none() {
    for byte in 0..=255 {
        let read = Code::from_byte(byte).map(|code| (code.byte(), code.name()));
        assert_eq!(read, named(&CODE_NAMES, byte, WireFault::UnknownCode));
    }
}

/// Texts, and the identifiers that they mean.
static IDENTIFIERS: [(&str, Option<u16>); 10] = [
    ("1209", Some(0x1209)),
    ("aBcD", Some(0xabcd)),
    ("0000", Some(0)),
    ("ffff", Some(0xffff)),
    ("", None),
    ("123", None),
    ("12345", None),
    ("0x12", None),
    ("+123", None),
    ("12 9", None),
];

#[test]
fn identifiers_have_four_digits() {
    for (text, number) in &IDENTIFIERS {
        assert_eq!(identifier(text.as_bytes()), *number, "{text}");
    }
}
