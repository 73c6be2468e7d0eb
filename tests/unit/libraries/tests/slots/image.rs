//! Where the active image lies on the medium.

use super::{formatted, install};
use fustrelan::slots::Medium;
use unit::Outcome;

#[test]
fn the_image_stands_where_it_is_said_to() -> Outcome {
    let mut slots = formatted()?;
    assert_eq!(slots.image_at(), 32);
    install(&mut slots, &[5, 6, 7])?;
    assert_eq!((slots.image_at(), slots.active_len()), (128, 3));
    let mut image = [0; 3];
    slots.medium().read(128, &mut image);
    assert_eq!(image, [5, 6, 7]);
    Ok(())
}
