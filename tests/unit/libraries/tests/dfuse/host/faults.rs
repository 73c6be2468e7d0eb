//! Each fault at each action, and pairs of them, over the model of a device.

use super::flash::MEMORY;
use super::model::{Fate, Model};
use fustrelan::dfuse::memory::Map;
use fustrelan::dfuse::session::{Action, Element, Limits, Plan, Report, Session};
use unit::Outcome;

/// Two elements, in pages 0 and 1, and in page 2.
static IMAGE: [Element<'static>; 2] = [
    Element {
        address: 2,
        bytes: &[0x11, 0x22, 0x33, 0x44, 0x55, 0x66, 0x77, 0x88, 0x99],
    },
    Element {
        address: 20,
        bytes: &[0xaa, 0xbb, 0xcc],
    },
];

const LIMITS: Limits = Limits {
    actions: 400,
    restarts: 4,
};

/// The faults.
static FATES: [Fate; 5] = [
    Fate::LostOut,
    Fate::LostBack,
    Fate::Twice,
    Fate::RestartsBefore,
    Fate::RestartsAfter,
];

/// Whether the memory has the first bytes of an element, at most so many.
fn stand(memory: &[u8; MEMORY], element: &Element<'_>, most: usize) -> bool {
    let front = &element.bytes[..element.bytes.len().min(most)];
    memory[element.address as usize..].starts_with(front)
}

/// One element, in page 1.
static SMALL: [Element<'static>; 1] = [Element {
    address: 9,
    bytes: &[0x11, 0x22, 0x33, 0x44, 0x55],
}];

/// Whether the memory has an image.
fn holds(memory: &[u8; MEMORY], image: &[Element<'_>]) -> bool {
    image.iter().all(|element| stand(memory, element, MEMORY))
}

/// Whether the memory has the front of an image, three bytes.
fn has_front(memory: &[u8; MEMORY], image: &[Element<'_>]) -> bool {
    stand(memory, &image[0], 3)
}

/// A session from a state of the device, in which these actions have these fates. At each moment no page but the image's three has
/// changed, and the front is there only if all of the image is. Returns how many actions it took.
fn run(
    map: &Map<'_>,
    image: &[Element<'_>],
    state: u8,
    faults: [(usize, Fate); 2],
) -> Outcome<usize> {
    let plan = Plan {
        map,
        image,
        transfer: 4,
        front: 3,
        leaves: true,
        start: 2,
    };
    let mut session = Session::begin(plan, LIMITS)?;
    let mut model = Model::new(state);
    for taken in 0..500 {
        let action = session.next();
        if let Action::Done(report) = action {
            assert!(
                matches!(report, Report::Verified(_)),
                "{state} {faults:?} {report:?}"
            );
            assert!(holds(&model.memory, image), "{state} {faults:?}");
            return Ok(taken);
        }
        let fault = faults.iter().rfind(|(at, _)| *at == taken);
        let fate = fault.map_or(Fate::Passes, |(_, fate)| *fate);
        session.take(model.perform(action, fate));
        assert_eq!(model.memory[24..], [0x5a; 24], "{state} {faults:?}");
        assert!(
            !has_front(&model.memory, image) || holds(&model.memory, image),
            "{state} {faults:?}"
        );
    }
    panic!("{state} {faults:?} does not end")
}

/// Each fault at each action, by itself, or with each at a third of the later ones.
fn run_all(image: &[Element<'_>], state: u8, pairs: bool) -> Outcome {
    let map = Map::read(b"@F/0/6*8g")?;
    let none = (500, Fate::Passes);
    let clean = run(&map, image, state, [none, none])?;
    for first in 0..clean {
        for fate in &FATES {
            let length = run(&map, image, state, [(first, *fate), none])?;
            if !pairs {
                continue;
            }
            // One of three pairs of actions, to be done in seconds.
            for second in (first + 1..length).filter(|second| (first + second) % 3 == 0) {
                for other in &FATES {
                    run(&map, image, state, [(first, *fate), (second, *other)])?;
                }
            }
        }
    }
    Ok(())
}

#[test]
fn each_fault_ends_as_verified() -> Outcome {
    // dfuIDLE, a command of an earlier session, dfuDNLOAD-IDLE, dfuUPLOAD-IDLE, dfuERROR.
    for state in [2u8, 3, 5, 9, 10] {
        run_all(&IMAGE, state, false)?;
    }
    Ok(())
}

#[test]
fn pairs_of_faults_end_as_verified() -> Outcome {
    run_all(&SMALL, 2, true)
}

#[test]
fn a_clean_session_takes_so_many_actions() -> Outcome {
    let map = Map::read(b"@F/0/6*8g")?;
    let none = (500, Fate::Passes);
    let taken = run(&map, &IMAGE, 2, [none, none])?;
    // Two actions clear the device, and two leave. Each command takes four: 3 pages, 4 blocks that are written, each with its address,
    // and 3 addresses of what is read. 4 blocks are read, and each address has two aborts.
    assert_eq!(taken, 2 + 4 * (3 + 2 * 4 + 3) + 4 + 2 * 3 + 2);
    Ok(())
}
