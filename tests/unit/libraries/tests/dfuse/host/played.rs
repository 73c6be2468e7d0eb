//! Sessions worked out by hand are played.

use super::clean::TWO_ELEMENTS;
use super::dialogue::{F4, Script, Turn, plan_of};
use super::ended::ENDED;
use super::lost::LOST;
use fustrelan::dfuse::memory::Map;
use fustrelan::dfuse::session::{Action, Plan, Session};
use unit::Outcome;

/// The session wants this done next.
fn wants(session: &Session<'_>, action: Action<'_>, name: &str) {
    assert_eq!(session.next(), action, "{name}");
}

/// The session does these, one after the other.
fn follow(session: &mut Session<'_>, turns: &[Turn], name: &str) {
    for (action, seen) in turns {
        wants(session, *action, name);
        session.take(*seen);
    }
}

/// A session does what is written.
fn play(map: &Map<'_>, script: &Script) -> Outcome {
    let plan = Plan {
        leaves: script.leaves,
        ..plan_of(map, script.image)
    };
    let mut session = Session::begin(plan, script.limits)?;
    for part in script.parts {
        follow(&mut session, part, script.name);
    }
    wants(&session, script.last, script.name);
    let taken = script.limits.actions.max(1) - session.actions;
    assert_eq!(taken, script.taken, "{}", script.name);
    Ok(())
}

#[test]
fn sessions_do_what_was_worked_out() -> Outcome {
    let map = Map::read(F4.as_bytes())?;
    play(&map, &TWO_ELEMENTS)?;
    for script in &LOST {
        play(&map, script)?;
    }
    for script in &ENDED {
        play(&map, script)?;
    }
    Ok(())
}
