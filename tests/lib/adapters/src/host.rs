//! A host's requests, over anything that answers a setup with its data stage: bytes, or None for a stall.

/// How a device answers a setup and its data stage.
pub type Answer = Option<Vec<u8>>;

pub fn out(request: u8, value: u16, index: u16, len: usize) -> [u8; 8] {
    setup(0x21, request, value, index, len)
}

pub fn get(request: u8, value: u16, index: u16, len: usize) -> [u8; 8] {
    setup(0xa1, request, value, index, len)
}

fn setup(kind: u8, request: u8, value: u16, index: u16, len: usize) -> [u8; 8] {
    let ([v0, v1], [i0, i1], [l0, l1]) = (value.to_le_bytes(), index.to_le_bytes(), (len as u16).to_le_bytes());
    [kind, request, v0, v1, i0, i1, l0, l1]
}

/// bState of a GETSTATUS, and bStatus.
pub fn status(device: &mut impl FnMut([u8; 8], &[u8]) -> Answer, index: u16) -> (u8, u8) {
    let answer = device(get(3, 0, index, 6), &[]).expect("GETSTATUS is answered");
    (answer[4], answer[0])
}

/// Sends an image in blocks, and closes it. The first state and status that are other than of a download that goes well.
pub fn download(device: &mut impl FnMut([u8; 8], &[u8]) -> Answer, index: u16, image: &[u8], transfer: usize) -> Result<(), (u8, u8)> {
    for (number, block) in image.chunks(transfer).enumerate() {
        if device(out(1, number as u16, index, block.len()), block).is_none() {
            return Err(status(device, index));
        }
        settled(device, index, 5)?;
    }
    let count = image.len().div_ceil(transfer);
    if device(out(1, count as u16, index, 0), &[]).is_none() {
        return Err(status(device, index));
    }
    settled(device, index, 2)
}

// Asks for the state until it is neither dfuDNBUSY nor dfuMANIFEST.
fn settled(device: &mut impl FnMut([u8; 8], &[u8]) -> Answer, index: u16, wanted: u8) -> Result<(), (u8, u8)> {
    loop {
        match status(device, index) {
            (4 | 7, 0) => {}
            (state, 0) if state == wanted => return Ok(()),
            other => return Err(other),
        }
    }
}

/// The image that the device gives back.
pub fn upload(device: &mut impl FnMut([u8; 8], &[u8]) -> Answer, index: u16, transfer: usize) -> Option<Vec<u8>> {
    let mut image = Vec::new();
    for number in 0.. {
        let part = device(get(2, number, index, transfer), &[])?;
        image.extend_from_slice(&part);
        if part.len() < transfer {
            break;
        }
    }
    Some(image)
}
