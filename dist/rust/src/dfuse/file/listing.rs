// Of crates/dfu_formats/src/dfuse/listing.rt, whose contracts are taken away.

//! Lists of elements for a session.

use crate::dfuse::file::element::Element;
use crate::dfuse::file::elements::Elements;

/// Writes elements to `room`, after the first `from` slots. Returns the number of slots in use after that, or None if the elements don't
/// fit.
pub(crate) fn put<'f>(
    elements: Elements<'f>,
    from: usize,
    room: &mut [Element<'f>],
) -> Option<usize> {
    let mut left = elements;
    let mut count = from;
    while let Some(element) = left.next_element() {
        if count == room.len() {
            return None;
        }
        room[count] = element;
        count += 1;
    }
    Some(count)
}

/// Writes elements that `formats` has read to the front of `room`, in their order. Returns their number, or None if they don't
/// fit. The elements of one file are sorted by address, as a session needs them.
#[cfg(feature = "formats")]
pub fn list<'p>(pieces: &'p [crate::formats::Element], room: &mut [Element<'p>]) -> Option<usize> {
    if pieces.len() > room.len() {
        return None;
    }
    let mut count: usize = 0;
    while count < pieces.len() {
        let piece = &pieces[count];
        room[count] = Element {
            address: piece.address(),
            bytes: piece.bytes(),
        };
        count += 1;
    }
    Some(count)
}
