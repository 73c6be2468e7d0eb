//! Files with a payload.

use crate::Outcome;
use fustrelan::memory::Global;
use fustrelan::suffix::add;
use fustrelan::wire::Ids;

/// A file with this payload, for every device.
pub fn file_with(payload: &[u8]) -> Outcome<Vec<u8>> {
    let every = Ids {
        device: 0xffff,
        product: 0xffff,
        vendor: 0xffff,
    };
    let mut file = Vec::new();
    add(Global, payload, every, &mut file)?;
    Ok(file)
}
