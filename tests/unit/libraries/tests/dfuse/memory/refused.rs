//! Strings that are refused, with the fault of each.

use fustrelan::dfuse::memory::{Map, MapFault};

/// Each string with its fault.
static REFUSED: [(&str, MapFault); 44] = [
    ("", MapFault::NoMap),
    ("Flash", MapFault::NoMap),
    ("Flash/0/1*1g", MapFault::NoMap),
    (" @F/0/1*1g", MapFault::NoMap),
    ("@", MapFault::NoMap),
    ("@F", MapFault::NoMap),
    ("@F/", MapFault::BadAddress),
    ("@F//1*1g", MapFault::BadAddress),
    ("@F/0x08000000", MapFault::BadAddress),
    ("@F/0x/1*1Kg", MapFault::BadAddress),
    ("@F/x0/1*1Kg", MapFault::BadAddress),
    ("@F/0xg/1*1Kg", MapFault::BadAddress),
    ("@F/ 0/1*1Kg", MapFault::BadAddress),
    ("@F/0 /1*1Kg", MapFault::BadAddress),
    ("@F/0x123456789/1*1Kg", MapFault::BadAddress),
    ("@F/0x0/", MapFault::BadCount),
    ("@F/0x0/*1Kg", MapFault::BadCount),
    ("@F/0x0/0*1Kg", MapFault::BadCount),
    ("@F/0x0/00000*1Kg", MapFault::BadCount),
    ("@F/0x0/000001*1Kg", MapFault::BadCount),
    ("@F/0x0/1x1Kg", MapFault::BadCount),
    ("@F/0x0/a*1Kg", MapFault::BadCount),
    ("@F/0x0/1", MapFault::BadCount),
    ("@F/0x0/1*", MapFault::BadSize),
    ("@F/0x0/1*Kg", MapFault::BadSize),
    ("@F/0x0/1*0Kg", MapFault::BadSize),
    ("@F/0x0/1*000001Kg", MapFault::BadSize),
    ("@F/0x0/1*1", MapFault::BadType),
    ("@F/0x0/1*1K", MapFault::BadType),
    ("@F/0x0/1*1Kh", MapFault::BadType),
    ("@F/0x0/1*1K`", MapFault::BadType),
    ("@F/0x0/1*1KA", MapFault::BadType),
    ("@F/0x0/1*1Gg", MapFault::BadType),
    ("@F/0x0/1*1KKg", MapFault::BadType),
    ("@F/0xFFFFFC00/2*1Kg", MapFault::PastTheEnd),
    ("@F/0xFFFFFC00/1*1Kg,1*1g", MapFault::PastTheEnd),
    ("@F/0/99999*99999Mg", MapFault::PastTheEnd),
    ("@F/0x0/1*1Kg;", MapFault::Trailing),
    ("@F/0x0/1*1Kg ", MapFault::Trailing),
    ("@F/0x0/1*1Kgg", MapFault::Trailing),
    ("@F/0x0/1*1Kg,", MapFault::BadCount),
    ("@F/0x0/1*1Kg/", MapFault::BadAddress),
    ("@F/0x0/2*1Kg/0x400/1*1Kg", MapFault::Overlaps),
    ("@F/0x400/1*1Kg/0x0/1*1025g", MapFault::Overlaps),
];

/// The fault of a string, if it isn't read.
fn fault_of(text: &[u8]) -> Option<MapFault> {
    Map::read(text).err()
}

#[test]
fn each_fault() {
    for (text, fault) in &REFUSED {
        assert_eq!(fault_of(text.as_bytes()), Some(*fault), "{text}");
    }
}

/// A string of 33 ranges, the last of which is this.
fn fault_of_33(last: &str) -> Option<MapFault> {
    let text = format!("@F/0/{}{last}", "1*1g,".repeat(32));
    fault_of(text.as_bytes())
}

#[test]
fn one_range_too_many() {
    assert_eq!(fault_of_33("1*1g"), Some(MapFault::TooManyRanges));
    assert_eq!(fault_of_33("1*1g;"), Some(MapFault::TooManyRanges));
    // A fault of its own comes first.
    assert_eq!(fault_of_33("1*1h"), Some(MapFault::BadType));
    assert_eq!(fault_of_33("1*4096Mg"), Some(MapFault::PastTheEnd));
}

#[test]
fn any_bytes() {
    assert_eq!(fault_of(&[]), Some(MapFault::NoMap));
    assert_eq!(fault_of(b"@\0/0/1*1g"), None);
    assert_eq!(fault_of(b"@/0/1*1g\0"), Some(MapFault::Trailing));
    assert_eq!(fault_of(b"@/0/1*1\xe7"), Some(MapFault::BadType));
}
