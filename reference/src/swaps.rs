//! Every trace that swaps reach, by brute force. Only for small recordings.

use std::collections::HashSet;

use crate::conflict::conflict;
use crate::machine::{run, Machine};
use crate::record::Event;
use crate::transactions::serial;

/// What was found among the traces that swaps reach from a history.
pub struct Reached {
    /// Each trace, as the places that its operations had in the history.
    pub traces: HashSet<Vec<usize>>,
    /// Some trace is serial by its own transactions.
    pub one_is_serial: bool,
    /// Every trace is possible, and its final state is the history's.
    pub all_are_possible_with_one_final_state: bool,
}

/// Explores every trace, or gives up once there are more than `most`.
pub fn explore(events: &[Event], most: usize) -> Option<Reached> {
    let traces = reached(events, most)?;
    let final_state = run(events.iter().copied());
    let one_is_serial = traces.iter().any(|places| serial(&trace(events, places)));
    let all_are_possible_with_one_final_state =
        traces.iter().all(|places| same_end(&trace(events, places), &final_state));
    Some(Reached { traces, one_is_serial, all_are_possible_with_one_final_state })
}

fn same_end(trace: &[Event], final_state: &Option<Machine>) -> bool {
    let end = run(trace.iter().copied());
    end.is_some() && end == *final_state
}

/// The operations of a history in the order of `places`.
pub fn trace(events: &[Event], places: &[usize]) -> Vec<Event> {
    places.iter().map(|place| events[*place]).collect()
}

fn reached(events: &[Event], most: usize) -> Option<HashSet<Vec<usize>>> {
    let start: Vec<usize> = (0..events.len()).collect();
    let mut found = HashSet::from([start.clone()]);
    let mut to_visit = vec![start];
    while let Some(places) = to_visit.pop() {
        for left in 1..places.len() {
            if conflict(&events[places[left - 1]], &events[places[left]]) {
                continue;
            }
            let mut swapped = places.clone();
            swapped.swap(left - 1, left);
            if found.insert(swapped.clone()) {
                to_visit.push(swapped);
            }
        }
        if found.len() > most {
            return None;
        }
    }
    Some(found)
}
