//! Virtual bytes and virtual sectors of two areas on an F407.

use super::{F407_TWO, KIB};
use fustrelan::places::{erased, find, virtual_len};

const SECTOR: u32 = 128 * KIB;
const SLOT: u32 = 640 * KIB;

#[test]
fn bytes() {
    let rows = [
        (0, 16, Some(0x0800_8000)),
        (0, 16384, Some(0x0800_8000)),
        (0, 16385, None),
        (16384, 1, None),
        (SECTOR, 16, Some(0x0800_c000)),
        (2 * SECTOR - 1, 1, None),
        (2 * SECTOR, 256, Some(0x0804_0000)),
        (SLOT - 1, 1, Some(0x0809_ffff)),
        (SLOT - 1, 2, None),
        (SLOT, 16, Some(0x0801_0000)),
        (SLOT + SECTOR + 131_071, 1, Some(0x0803_ffff)),
        (SLOT + 2 * SECTOR + 5, 16, Some(0x080a_0005)),
        (2 * SLOT - 1, 1, Some(0x080f_ffff)),
        (2 * SLOT, 1, None),
        (u32::MAX, u32::MAX, None),
    ];
    assert_eq!(virtual_len(&F407_TWO), 2 * SLOT);
    for (at, len, wanted) in rows {
        assert_eq!(find(&F407_TWO, at, len), wanted, "{len} from {at:x}");
    }
}

#[test]
fn sectors() {
    let rows = [
        (0, Some((0x0800_8000, 16))),
        (1, None),
        (SECTOR, Some((0x0800_c000, 16))),
        (2 * SECTOR, Some((0x0804_0000, 128))),
        (2 * SECTOR + 256, None),
        (4 * SECTOR, Some((0x0808_0000, 128))),
        (SLOT, Some((0x0801_0000, 64))),
        (SLOT + SECTOR, Some((0x0802_0000, 128))),
        (SLOT + 4 * SECTOR, Some((0x080e_0000, 128))),
        (2 * SLOT, None),
    ];
    for (at, wanted) in rows {
        assert_eq!(
            erased(&F407_TWO, at).map(|it| (it.at, it.len / KIB)),
            wanted,
            "{at:x}"
        );
    }
}
