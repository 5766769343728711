//! The checker's answer and written trace held against every trace that swaps reach.

use reference::record::{encode, Event};
use reference::swaps::{explore, trace};
use reference::transactions::serial;
use reference::{possible_history, Answer};

use crate::case::Case;
use crate::library;

/// More traces than this are not explored.
const MOST_TRACES: usize = 4000;

pub enum Outcome {
    Agrees {
        cooperable: bool,
    },
    /// Refused, or too many traces.
    NotExplored,
    Differs(String),
}

/// Explores the recording and holds the checker to what is found.
pub fn outcome(input: &[u8]) -> Outcome {
    let Ok(events) = possible_history(input) else { return Outcome::NotExplored };
    let Some(reached) = explore(&events, MOST_TRACES) else { return Outcome::NotExplored };
    if !reached.all_are_possible_with_one_final_state {
        return Outcome::Differs(
            "a trace that swaps reach isn't possible, or ends otherwise".into(),
        );
    }
    let Some(left) = Case::plain(input.to_vec()).lent().left_by(library::judge) else {
        return Outcome::Differs("the checker stopped in a panic".into());
    };
    let cooperable = matches!(left.answer, Answer::Cooperable { .. });
    if cooperable != reached.one_is_serial || matches!(left.answer, Answer::Refused { .. }) {
        let found = if reached.one_is_serial { "some" } else { "no" };
        let answer = left.answer;
        return Outcome::Differs(format!(
            "checker: {answer:?}, but {found} serial trace is reached"
        ));
    }
    if !cooperable {
        return Outcome::Agrees { cooperable };
    }
    match places(&events, left.lent_out()) {
        Some(places) if !reached.traces.contains(&places) => {
            Outcome::Differs(format!("written: records {places:?}, which swaps don't reach"))
        }
        Some(places) if !serial(&trace(&events, &places)) => {
            Outcome::Differs(format!("written: records {places:?}, which isn't serial"))
        }
        Some(_) => Outcome::Agrees { cooperable },
        None => Outcome::Differs("what was written isn't the recording's records".into()),
    }
}

/// The places that the written records had, each taken once. Equal records are of one thread and
/// so never pass each other: the first one left is the right one.
fn places(events: &[Event], written: &[u8]) -> Option<Vec<usize>> {
    let mut left: Vec<Option<Event>> = events.iter().copied().map(Some).collect();
    let mut places = Vec::new();
    for bytes in written.chunks(8) {
        let place = left.iter().position(|e| e.is_some_and(|e| encode(&e)[..] == *bytes))?;
        left[place] = None;
        places.push(place);
    }
    Some(places)
}
