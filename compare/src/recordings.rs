//! One random recording after the other: mostly short, some long.

use reference::record::{encode_all, Event};
use reference::{judge, Answer, WORK_AREA};

use crate::damage::{damaged, refused_by};
use crate::histories::{possible, stirred, with_marks_left_out, Habits};
use crate::numbers::Numbers;
use crate::shapes::{shape, SHAPES};

/// A recording of any sort.
pub fn any(numbers: &mut Numbers) -> Vec<u8> {
    let records = match numbers.below(1000) {
        0..=1 => numbers.one_of(&[1023, 1024, 1024, 1025]),
        2..=6 => 300 + numbers.below(725),
        7..=60 => 60 + numbers.below(200),
        61..=350 => 24 + numbers.below(40),
        _ => 1 + numbers.below(24),
    };
    let events = history(records, numbers);
    match numbers.below(100) {
        0..=19 => damaged(&events, numbers),
        20..=34 => refused_by(5 + numbers.below(8) as u8, &events, numbers),
        _ => encode_all(&events),
    }
}

/// A recording that the reference calls a violation.
pub fn violation(numbers: &mut Numbers) -> Vec<u8> {
    loop {
        let input = any(numbers);
        let (mut out, mut work) = (vec![0; input.len()], vec![0; WORK_AREA]);
        if let Answer::Violation { .. } = judge(&input, &mut out, &mut work) {
            return input;
        }
    }
}

/// A history, possible save for the shapes that end in something impossible or refused.
fn history(records: usize, numbers: &mut Numbers) -> Vec<Event> {
    match numbers.below(10) {
        0..=2 => possible(&Habits::any(records, numbers), records, numbers),
        3 => stirred(records, numbers),
        4..=6 => with_marks_left_out(records, numbers),
        _ => shape(numbers.below(SHAPES), records, numbers),
    }
}

/// A small recording, so that every trace that swaps reach can be explored. Few threads that meet
/// often, so that many are violations.
pub fn small(numbers: &mut Numbers) -> Vec<u8> {
    let records = 4 + numbers.below(7);
    let mut habits = Habits {
        threads: 2 + numbers.below(2),
        variables: 1 + numbers.below(2),
        locks: 1,
        stays: 0,
        polite: 0,
        forks_first: true,
        ..Habits::any(records, numbers)
    };
    habits.weights[9] = numbers.one_of(&[0, 5, 10, 20]);
    let events = match numbers.below(8) {
        0 => stirred(records, numbers),
        1 => shape(numbers.below(SHAPES), records, numbers),
        _ => possible(&habits, records, numbers),
    };
    encode_all(&events)
}
