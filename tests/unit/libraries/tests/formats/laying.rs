//! Images of elements with gaps.

use fustrelan::formats::{LayFault, ihex, lay, lowest};
use fustrelan::memory::Global;
use unit::Outcome;

/// Two bytes at 0, and one at 3.
static GAPPED: &str = ":020000000102FB\n:0100030003F9\n:00000001FF";

#[test]
fn gaps() -> Outcome {
    let elements = ihex::read(Global, GAPPED.as_bytes())?;
    let filled = lay(Global, &elements, Some(0xff))?;
    assert_eq!(filled.as_slice(), [1, 2, 0xff, 3].as_slice());
    assert_eq!(
        lay(Global, &elements, None).err(),
        Some(LayFault::Gap(2, 3))
    );
    let text = LayFault::Gap(2, 3).to_string();
    assert_eq!(
        text.as_str(),
        "nothing is at 00000002 to before 00000003, and no filling is given"
    );
    Ok(())
}

/// A byte at 08000000h, and one at 08FFFFFFh: 16,777,216 bytes from the first to the last. With another record it is one more.
static WIDE: &str = ":020000040800F2\n:01000000AA55\n:0200000408FFF3\n:01FFFF00AA57\n";

#[test]
fn the_largest() -> Outcome {
    let mut text = String::from(WIDE);
    text.push_str(":00000001FF");
    let elements = ihex::read(Global, text.as_bytes())?;
    assert_eq!(lowest(&elements), 0x0800_0000);
    assert_eq!(lay(Global, &elements, Some(0))?.len(), 16_777_216);
    let mut text = String::from(WIDE);
    text.push_str(":020000040900F1\n:01000000AA55\n:00000001FF");
    let elements = ihex::read(Global, text.as_bytes())?;
    assert_eq!(
        lay(Global, &elements, Some(0)).err(),
        Some(LayFault::TooLarge)
    );
    Ok(())
}

#[test]
fn nothing() -> Outcome {
    let elements = ihex::read(Global, b":00000001FF")?;
    assert_eq!(lowest(&elements), 0);
    assert_eq!(lay(Global, &elements, None)?.len(), 0);
    Ok(())
}
