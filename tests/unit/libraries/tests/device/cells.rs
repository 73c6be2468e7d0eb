//! How a device is seen in a cell of the table of `stations.rt`.

use super::BLOCK;
use super::stations::{IMAGE, Station};
use fustrelan::device::{Answer, Device};
use fustrelan::slots::SimMedium;

/// Whether these bytes are the active image.
fn has_image(device: &Device<SimMedium>, wanted: &[u8]) -> bool {
    let len = device.slots().active_len() as usize;
    let mut image = vec![0; len];
    device.slots().read_active(0, &mut image);
    image == wanted
}

/// A hexadecimal digit.
fn digit(value: u8) -> u8 {
    match value {
        0..10 => b'0' + value,
        _ => b'a' + (value - 10),
    }
}

/// What was answered, and what is seen of a device then, as a cell of the table has it.
pub fn seen(device: &Device<SimMedium>, answer: Answer) -> [u8; 3] {
    let letter = match answer {
        Answer::Ack => b'a',
        Answer::Bytes => b'b',
        Answer::Stall => b's',
    };
    let letter = if has_image(device, &IMAGE) {
        letter
    } else if has_image(device, &BLOCK) {
        letter.to_ascii_uppercase()
    } else {
        b'?'
    };
    [
        letter,
        digit(device.state().byte()),
        digit(device.code().byte()),
    ]
}

/// A cell of the station's row.
pub fn cell(station: &Station, column: usize) -> [u8; 3] {
    let from = column * 4;
    std::array::from_fn(|i| station.cells[from + i])
}
