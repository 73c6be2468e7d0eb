// Of crates/dfu_wire/src/identifiers.rt, whose contracts are taken away.

//! Identifiers written as four hexadecimal digits.

/// Returns the number in `digits`, four hexadecimal digits of either case with the highest first, or None for any other text. Scripts and
/// options contain idVendor, idProduct and bcdDevice in this form.
pub fn identifier(digits: &[u8]) -> Option<u16> {
    let mut bytes = [0u8; 2];
    match hex::decode_to_slice(digits, &mut bytes) {
        Ok(()) => Some(u16::from_be_bytes(bytes)),
        Err(_error) => None,
    }
}
