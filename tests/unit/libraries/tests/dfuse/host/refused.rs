//! Plans that are refused.

use super::dialogue::{AMPLE, plan_of};
use fustrelan::dfuse::memory::Map;
use fustrelan::dfuse::session::{Element, Plan, PlanFault, Session};
use unit::{Outcome, are_displayed};

/// A memory of which parts can't be erased, written or read.
static PARTS: &str = "@X/0x0/1*16g,1*16e,1*16c,1*16f,1*16g";

/// Bytes of elements.
const NONE: &[u8] = &[];
const ONE: &[u8] = &[0];
const TWO: &[u8] = &[0, 0];
const SIXTEEN: &[u8] = &[0, 0, 0, 0, 0, 0, 0, 0, 0, 0, 0, 0, 0, 0, 0, 0];

/// Two elements, each an address and its bytes, and the fault of the image.
type Row = (u32, &'static [u8], u32, &'static [u8], Option<PlanFault>);

static ROWS: [Row; 12] = [
    (0, SIXTEEN, 64, SIXTEEN, None),
    (0, ONE, 1, ONE, None),
    (0, ONE, 64, NONE, Some(PlanFault::EmptyImage)),
    (64, ONE, 0, ONE, Some(PlanFault::NotInOrder)),
    (0, TWO, 1, ONE, Some(PlanFault::Overlapping)),
    (0, TWO, 0, ONE, Some(PlanFault::Overlapping)),
    (0, ONE, 79, TWO, Some(PlanFault::OutsideTheMap)),
    (0, ONE, 0xffff_ffff, SIXTEEN, Some(PlanFault::OutsideTheMap)),
    (0, ONE, 32, ONE, Some(PlanFault::NotWritable)),
    (0, ONE, 16, ONE, Some(PlanFault::NotErasable)),
    (0, ONE, 48, ONE, Some(PlanFault::NotReadable)),
    (0, ONE, 31, TWO, Some(PlanFault::NotWritable)),
];

/// The fault of a plan with blocks of so many bytes.
fn fault_of(map: &Map<'_>, image: &[Element<'_>], transfer: u16) -> Option<PlanFault> {
    let plan = Plan {
        transfer,
        ..plan_of(map, image)
    };
    Session::begin(plan, AMPLE).err()
}

#[test]
fn each_fault() -> Outcome {
    let map = Map::read(PARTS.as_bytes())?;
    for (at, bytes, next, more, fault) in &ROWS {
        let image = [
            Element {
                address: *at,
                bytes,
            },
            Element {
                address: *next,
                bytes: more,
            },
        ];
        assert_eq!(fault_of(&map, &image, 2048), *fault, "{at} {next}");
    }
    assert_eq!(fault_of(&map, &[], 2048), Some(PlanFault::EmptyImage));
    assert_eq!(fault_of(&map, &[], 0), Some(PlanFault::NoTransferSize));
    Ok(())
}

/// What each fault is printed as.
static TEXTS: [(PlanFault, &str); 8] = [
    (
        PlanFault::NoTransferSize,
        "the device takes blocks of 0 bytes",
    ),
    (
        PlanFault::EmptyImage,
        "the image or one of its elements is empty",
    ),
    (PlanFault::NotInOrder, "the image's elements do not ascend"),
    (PlanFault::Overlapping, "the image's elements overlap"),
    (
        PlanFault::OutsideTheMap,
        "the image is not all on the memory map",
    ),
    (
        PlanFault::NotWritable,
        "the image touches a page that cannot be written",
    ),
    (
        PlanFault::NotErasable,
        "the image touches a page that cannot be erased",
    ),
    (
        PlanFault::NotReadable,
        "the image touches a page that cannot be read back",
    ),
];

#[test]
fn faults_say_what_is_wrong() {
    are_displayed(&TEXTS);
}
