//! The elements of a setting, as a session takes them.

use super::made::{changed, made};
use fustrelan::dfuse::file::{ImageFault, list, read};
use fustrelan::dfuse::session::Element;
use fustrelan::formats::ihex;
use fustrelan::memory::Global;
use unit::Outcome;

const NOTHING: Element<'static> = Element {
    address: 0,
    bytes: &[],
};

#[test]
fn elements_by_address() -> Outcome {
    // The first element has a higher address than the second.
    let bytes = changed(285, &[0, 0, 1, 8]);
    let file = read(&bytes)?;
    let mut room = [NOTHING; 3];
    assert_eq!(file.image(0, &mut room), Ok(2));
    assert_eq!((room[0].address, room[0].bytes), (0x0800_4000, &[5, 6][..]));
    assert_eq!(
        (room[1].address, room[1].bytes),
        (0x0801_0000, &[1, 2, 3, 4][..])
    );
    Ok(())
}

#[test]
fn images_that_are_refused() -> Outcome {
    let bytes = made();
    let file = read(&bytes)?;
    let mut room = [NOTHING; 2];
    assert_eq!(file.image(1, &mut room), Err(ImageFault::NoSuchSetting));
    assert_eq!(file.image(0, &mut room), Ok(2));
    let mut one = [NOTHING; 1];
    assert_eq!(file.image(0, &mut one), Err(ImageFault::TooManyElements));
    assert_eq!(file.image(1, &mut one), Err(ImageFault::NoSuchSetting));
    Ok(())
}

#[test]
fn elements_of_intel_hex() -> Outcome {
    let text = b":020000040800F2\n:0400000001020304F2\n:024000000506B3\n:00000001FF\n";
    let pieces = ihex::read(Global, text)?;
    let mut room = [NOTHING; 2];
    assert_eq!(list(&pieces, &mut room), Some(2));
    assert_eq!(
        (room[0].address, room[0].bytes),
        (0x0800_0000, &[1, 2, 3, 4][..])
    );
    assert_eq!((room[1].address, room[1].bytes), (0x0800_4000, &[5, 6][..]));
    let mut one = [NOTHING; 1];
    assert_eq!(list(&pieces, &mut one), None);
    Ok(())
}
