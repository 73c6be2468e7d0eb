//! What the tests share: a NOR flash that refuses what a part would, and a host's requests.

pub mod host;
pub mod nor;

/// An image of so many bytes, of which no two blocks are alike.
pub fn image(len: usize) -> Vec<u8> {
    (0..len as u32).map(|at| (at.wrapping_mul(2_654_435_761) >> 13) as u8).collect()
}
