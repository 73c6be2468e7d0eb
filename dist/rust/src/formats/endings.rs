// Of crates/dfu_formats/src/images/endings.rt, whose contracts are taken away.

//! The format of a file according to the ending of its name.

use crate::formats::format::Format;

/// Kind of file, according to the ending of its name.
#[derive(Clone, Copy, Debug, PartialEq, Eq)]
pub enum Ending {
    /// The ending is that of a format that builds produce.
    Of(Format),
    /// The ending is that of a DFU file.
    Dfu,
}

/// Returns true if `name` ends in `ending`, in upper or lower case.
fn name_ends_in(ending: &[u8], name: &[u8]) -> bool {
    if name.len() < ending.len() {
        return false;
    }
    let (_, last) = name.split_at(name.len() - ending.len());
    last.eq_ignore_ascii_case(ending)
}

/// Returns the kind of file for the ending of `name`, or None if no kind has this ending.
pub(crate) fn name_ending(name: &[u8]) -> Option<Ending> {
    if name_ends_in(b".dfu", name) {
        Some(Ending::Dfu)
    } else if name_ends_in(b".hex", name)
        || name_ends_in(b".ihex", name)
        || name_ends_in(b".ihx", name)
        || name_ends_in(b".mcs", name)
    {
        Some(Ending::Of(Format::IntelHex))
    } else if name_ends_in(b".s19", name)
        || name_ends_in(b".s28", name)
        || name_ends_in(b".s37", name)
        || name_ends_in(b".srec", name)
        || name_ends_in(b".mot", name)
    {
        Some(Ending::Of(Format::SRecord))
    } else if name_ends_in(b".uf2", name) {
        Some(Ending::Of(Format::Uf2))
    } else if name_ends_in(b".elf", name) || name_ends_in(b".axf", name) {
        Some(Ending::Of(Format::Elf))
    } else {
        None
    }
}
