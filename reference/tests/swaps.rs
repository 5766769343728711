//! The answer held against every trace that swaps reach, on small random histories.

use reference::machine::Machine;
use reference::record::{decode, encode, encode_all, Event, Operation};
use reference::swaps::{explore, trace};
use reference::transactions::serial;
use reference::{judge, Answer};

/// A small generator of numbers (a multiplier and a shift), enough to pick operations by.
struct Numbers(u64);

impl Numbers {
    fn below(&mut self, limit: u64) -> u64 {
        self.0 = self.0.wrapping_mul(6364136223846793005).wrapping_add(1442695040888963407);
        (self.0 >> 33) % limit
    }
}

fn operation(numbers: &mut Numbers, machine: &Machine) -> Operation {
    let variable = numbers.below(2) as u8;
    let lock = numbers.below(2) as u8;
    let thread = numbers.below(3) as u8;
    match numbers.below(12) {
        0 | 1 => {
            // A first read gives any value.
            let any = numbers.below(3) as u16;
            let value = machine.variables[usize::from(variable)].unwrap_or(any);
            Operation::Read { variable, value }
        }
        2 | 3 => Operation::Write { variable, value: numbers.below(2) as u16 },
        4 => Operation::Acquire { lock },
        5 => Operation::Release { lock },
        6 => Operation::Prewait { lock },
        7 => Operation::Postwait { lock },
        8 => Operation::Notify { lock },
        9 => Operation::Fork { thread },
        10 => Operation::Join { thread },
        _ => Operation::Yield,
    }
}

/// It begins with a fork, for without a second thread there is nothing to swap.
fn history(numbers: &mut Numbers, length: usize) -> Vec<Event> {
    let mut machine = Machine::fresh();
    let fork = Event { thread: 0, operation: Operation::Fork { thread: 1 } };
    machine.step(&fork);
    let mut events = vec![fork];
    for _ in 0..20 * length {
        let thread = numbers.below(3) as u8;
        let event = Event { thread, operation: operation(numbers, &machine) };
        if events.len() < length && machine.fault(&event).is_none() {
            machine.step(&event);
            events.push(event);
        }
    }
    events
}

/// The places that the written records had, each taken once, in the order written.
fn places(events: &[Event], written: &[u8]) -> Vec<usize> {
    let mut left: Vec<Option<Event>> = events.iter().copied().map(Some).collect();
    let mut places = Vec::new();
    for bytes in written.chunks(8) {
        let place = left.iter().position(|e| e.is_some_and(|e| encode(&e)[..] == *bytes));
        let place = place.expect("only the recording's records are written");
        left[place] = None;
        places.push(place);
    }
    places
}

#[test]
fn cooperable_exactly_if_swaps_reach_a_serial_trace() {
    let mut numbers = Numbers(1);
    let (mut cooperable, mut violations) = (0, 0);
    for round in 0..5000 {
        let events = history(&mut numbers, 4 + round % 6);
        let Some(reached) = explore(&events, 3000) else { continue };
        assert!(reached.all_are_possible_with_one_final_state);
        let mut out = vec![0; 8 * events.len()];
        let answer = judge(&encode_all(&events), &mut out, &mut vec![0; 4096]);
        assert_eq!(matches!(answer, Answer::Cooperable { .. }), reached.one_is_serial);
        if reached.one_is_serial {
            cooperable += 1;
            // Equal records of one thread stay in order, so taking the first is right.
            let places = places(&events, &out);
            assert!(reached.traces.contains(&places));
            assert!(serial(&trace(&events, &places)));
            assert!(out.chunks(8).all(|bytes| decode(bytes).is_ok()));
        } else {
            violations += 1;
        }
    }
    assert!(cooperable > 1000 && violations > 300, "{cooperable} {violations}");
}
