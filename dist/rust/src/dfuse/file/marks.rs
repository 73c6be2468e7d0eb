// Of crates/dfu_formats/src/dfuse/marks.rt, whose contracts are taken away.

//! The letters at the front of a file and of each target.

/// Returns true if the first six bytes are the letters Target.
pub(crate) fn is_target(bytes: &[u8]) -> bool {
    bytes[0] == b'T'
        && bytes[1] == b'a'
        && bytes[2] == b'r'
        && bytes[3] == b'g'
        && bytes[4] == b'e'
        && bytes[5] == b't'
}

/// Returns true if the first five bytes are the letters DfuSe.
pub(crate) fn begins_with_dfuse(bytes: &[u8]) -> bool {
    bytes[0] == b'D' && bytes[1] == b'f' && bytes[2] == b'u' && bytes[3] == b'S' && bytes[4] == b'e'
}
