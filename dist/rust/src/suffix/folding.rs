// Of crates/dfu_suffix/src/folding.rt, whose contracts are taken away.

//! The CRC register over many bytes. All bytes are folded onto the last 1,968 bytes, so only these need the tables.
//!
//! The CRC shifts of a number below 2^32 by 0, 720, 848, 1184, 1280, 1920 and 1968 bytes combine to 0 (crates/dfu_suffix/proofs/LongShifts.antt). A byte can
//! therefore be removed if each of the bytes 48, 688, 784, 1120, 1248 and 1968 after it is combined with it by xor, because this doesn't
//! change the register. All of these distances are multiples of sixteen, so sixteen bytes can be folded at once.

use crate::suffix::crc;

/// Smallest number of bytes for which folding is used, and largest number of bytes that is folded at a time.
const FOLDED_BYTES: usize = 4096;

/// Number of bytes in the room: a residue of 1,968 bytes, and a piece after it.
const ROOM: usize = 6064;

// Returns a room whose first 1,968 bytes are a residue that represents `register`.
fn residue_for(register: u32) -> [u8; ROOM] {
    let mut room = [0u8; ROOM];
    room[..4].copy_from_slice(&register.to_le_bytes());
    room
}

// Folds at most 4,096 bytes into the residue, which then represents the register after them.
fn fold(room: &mut [u8; ROOM], bytes: &[u8]) {
    for place in 0..bytes.len() {
        room[place + 1968] = bytes[place]
            ^ room[place]
            ^ room[place + 720]
            ^ room[place + 848]
            ^ room[place + 1184]
            ^ room[place + 1280]
            ^ room[place + 1920];
    }
    room.copy_within(bytes.len()..bytes.len() + 1968, 0);
}

// Returns the register that the residue at the front of the room represents.
fn register_of(room: &[u8; ROOM]) -> u32 {
    let first = crc::after_bytes(0, &room[..720]);
    let second = crc::after_bytes(first, &room[720..848]);
    let third = crc::after_bytes(second, &room[848..1184]);
    let fourth = crc::after_bytes(third, &room[1184..1280]);
    let fifth = crc::after_bytes(fourth, &room[1280..1920]);
    let whole = crc::after_bytes(fifth, &room[1920..1968]);
    whole ^ first ^ second ^ third ^ fourth ^ fifth
}

// Returns the register `start` after many bytes, which are folded.
fn after_many(start: u32, bytes: &[u8]) -> u32 {
    let mut room = residue_for(start);
    let mut rest = bytes;
    while rest.len() > FOLDED_BYTES {
        let (front, more) = rest.split_at(FOLDED_BYTES);
        fold(&mut room, front);
        rest = more;
    }
    fold(&mut room, rest);
    register_of(&room)
}

/// Returns the register `start` after `bytes`, which are folded if there are at least 4,096.
pub(crate) fn after_bytes(start: u32, bytes: &[u8]) -> u32 {
    if bytes.len() < FOLDED_BYTES {
        crc::after_bytes(start, bytes)
    } else {
        after_many(start, bytes)
    }
}
