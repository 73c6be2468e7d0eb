//! The active image in a medium's bytes, read by the layout of the profile.

/// The active image in these bytes, if there is one: that of the only valid slot, or of the slot whose
/// generation is the other's plus one.
pub fn plain_image(bytes: &[u8], gate: usize) -> Option<&[u8]> {
    let (first, second) = bytes.split_at(bytes.len() / 2);
    match (held_image(first, gate), held_image(second, gate)) {
        (None, None) => None,
        (Some(image), None) | (None, Some(image)) => Some(image),
        (Some(one), Some(other)) => {
            let a = *first.get(gate)?;
            let b = *second.get(gate)?;
            if b == a.wrapping_add(1) {
                Some(other)
            } else if a == b.wrapping_add(1) {
                Some(one)
            } else {
                None
            }
        }
    }
}

/// The image of a slot whose gate is open and whose header, of version 2, fits the image.
fn held_image(slot: &[u8], gate: usize) -> Option<&[u8]> {
    let header = slot.get(gate..)?;
    match (slot, header) {
        ([0xa5, ..], [_, 2, 0, 0, a, b, c, d, e, f, g, h, 0, 0, 0, 0, ..]) => {
            let len = u32::from_le_bytes([*a, *b, *c, *d]);
            let image = header.get(gate..)?.get(..len as usize)?;
            if u32::from_le_bytes([*e, *f, *g, *h]) == register(image) {
                Some(image)
            } else {
                None
            }
        }
        _ => None,
    }
}

/// The register of USB DFU 1.1, appendix B, bit by bit.
fn register(bytes: &[u8]) -> u32 {
    let mut register = 0xffff_ffff;
    for byte in bytes {
        register = after_byte(register, *byte);
    }
    register
}

fn after_byte(register: u32, byte: u8) -> u32 {
    let mut register = register ^ u32::from(byte);
    for _ in 0..8 {
        let bit = register & 1;
        register >>= 1;
        if bit == 1 {
            register ^= 0xedb8_8320;
        }
    }
    register
}
