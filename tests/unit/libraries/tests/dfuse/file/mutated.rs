//! 100,000 files that differ from D in a few bytes, as `dfuse::file` and a plain reader read them. How many of each tenth are taken was
//! counted by a third reader, in Python.

use super::made::{SIZE, made, put, seal};
use super::plain::{Sums, sums};
use fustrelan::dfuse::file::{FileFault, read};

/// What a file adds up to, by the calls of the crate.
fn sums_by_calls(bytes: &[u8]) -> Result<Sums, FileFault> {
    let mut targets = read(bytes)?.targets();
    let (mut many, mut total) = (0, 0);
    while let Some(mut target) = targets.next_target() {
        while let Some(element) = target.elements.next_element() {
            many += 1;
            total += u64::from(element.address);
            total += element
                .bytes
                .iter()
                .map(|byte| u64::from(*byte))
                .sum::<u64>();
        }
    }
    Ok((many, total))
}

/// The next of a row of numbers that look random.
fn next(random: &mut u64) -> u64 {
    *random ^= *random << 13;
    *random ^= *random >> 7;
    *random ^= *random << 17;
    *random >> 20
}

/// The places of fields, where most changes are made: the prefix, the target's numbers, the elements, and the suffix.
static PLACES: [(u64, u64); 5] = [(0, 18), (277, 8), (285, 12), (297, 10), (307, 12)];

/// Changes D in one to three places.
fn change(bytes: &mut [u8; SIZE], random: &mut u64) {
    for _ in 0..1 + next(random) % 3 {
        let part = (next(random) % 6) as usize;
        let (start, many) = PLACES.get(part).copied().unwrap_or((0, SIZE as u64));
        let at = start + next(random) % many;
        let most = if next(random) % 2 == 0 { 256 } else { 5 };
        put(bytes, at as usize, &[(next(random) % most) as u8]);
    }
}

/// Reads a tenth of the files: how many are taken.
fn run(seed: u64) -> u32 {
    let mut random = seed;
    let mut taken = 0;
    for i in 0..10_000 {
        let mut bytes = made();
        change(&mut bytes, &mut random);
        if i % 8 != 0 {
            seal(&mut bytes);
        }
        let here = sums_by_calls(&bytes);
        assert_eq!(here, sums(&bytes), "{i}");
        if here.is_ok() {
            taken += 1;
        }
    }
    taken
}

#[test]
fn changed_files_0() {
    assert_eq!(run(0x9e37_79b9_7f4a_7c11), 2_518);
}

#[test]
fn changed_files_1() {
    assert_eq!(run(0x9e37_79b9_7f4a_7c12), 2_445);
}

#[test]
fn changed_files_2() {
    assert_eq!(run(0x9e37_79b9_7f4a_7c13), 2_467);
}

#[test]
fn changed_files_3() {
    assert_eq!(run(0x9e37_79b9_7f4a_7c14), 2_521);
}

#[test]
fn changed_files_4() {
    assert_eq!(run(0x9e37_79b9_7f4a_7c15), 2_486);
}

#[test]
fn changed_files_5() {
    assert_eq!(run(0x9e37_79b9_7f4a_7c16), 2_503);
}

#[test]
fn changed_files_6() {
    assert_eq!(run(0x9e37_79b9_7f4a_7c17), 2_408);
}

#[test]
fn changed_files_7() {
    assert_eq!(run(0x9e37_79b9_7f4a_7c18), 2_508);
}

#[test]
fn changed_files_8() {
    assert_eq!(run(0x9e37_79b9_7f4a_7c19), 2_505);
}

#[test]
fn changed_files_9() {
    assert_eq!(run(0x9e37_79b9_7f4a_7c1a), 2_414);
}
