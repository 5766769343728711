//! All small histories over small alphabets.

use reference::machine::Machine;
use reference::record::{encode_all, Event, Operation};

/// What every history begins with, what it goes on with, and how far.
pub struct Alphabet {
    beginning: Vec<Event>,
    letters: Vec<Event>,
    length: usize,
}

/// The alphabets of a run. `deeper` adds that many records to each.
pub fn alphabets(deeper: usize) -> Vec<Alphabet> {
    let of_thread = |thread| move |operation| Event { thread, operation };
    let letters = |threads: u8, operations: &dyn Fn(u8) -> Vec<Operation>| -> Vec<Event> {
        (0..threads).flat_map(|t| operations(t).into_iter().map(of_thread(t))).collect()
    };
    let forks = |threads: u8| -> Vec<Event> {
        (1..threads)
            .map(|thread| Event { thread: 0, operation: Operation::Fork { thread } })
            .collect()
    };
    let made =
        |beginning, letters, length| Alphabet { beginning, letters, length: length + deeper };
    vec![
        made(vec![], letters(2, &all_kinds), 4),
        made(forks(2), letters(2, &on_a_lock), 5),
        made(forks(2), letters(2, &on_one_variable), 6),
        made(forks(3), letters(3, &on_two_variables), 4),
        made(vec![], letters(3, &on_threads), 4),
    ]
}

fn all_kinds(thread: u8) -> Vec<Operation> {
    let mut operations = on_a_lock(thread);
    operations.extend([
        Operation::Read { variable: 0, value: 0 },
        Operation::Read { variable: 0, value: 1 },
        Operation::Write { variable: 0, value: 1 },
        Operation::Fork { thread: 1 },
        Operation::Join { thread: 1 - thread },
    ]);
    operations
}

fn on_a_lock(_: u8) -> Vec<Operation> {
    let lock = 0;
    vec![
        Operation::Acquire { lock },
        Operation::Release { lock },
        Operation::Prewait { lock },
        Operation::Postwait { lock },
        Operation::Notify { lock },
        Operation::Yield,
    ]
}

fn on_one_variable(_: u8) -> Vec<Operation> {
    let variable = 0;
    let read = Operation::Read { variable, value: 0 };
    vec![read, Operation::Write { variable, value: 0 }, Operation::Yield]
}

fn on_two_variables(_: u8) -> Vec<Operation> {
    let on = |variable| {
        [Operation::Read { variable, value: 0 }, Operation::Write { variable, value: 0 }]
    };
    let mut operations = vec![Operation::Yield];
    operations.extend(on(0));
    operations.extend(on(1));
    operations
}

fn on_threads(_: u8) -> Vec<Operation> {
    let mut operations = vec![Operation::Yield, Operation::Write { variable: 0, value: 1 }];
    operations.extend((1..3).map(|thread| Operation::Fork { thread }));
    operations.extend((0..3).map(|thread| Operation::Join { thread }));
    operations
}

impl Alphabet {
    /// Visits every possible history, and every one that is so up to its last record.
    pub fn visit(&self, visitor: &mut dyn FnMut(Vec<u8>)) {
        let mut machine = Machine::fresh();
        for event in &self.beginning {
            machine.step(event);
        }
        self.extend(&mut self.beginning.clone(), &machine, self.length, visitor);
    }

    fn extend(
        &self,
        events: &mut Vec<Event>,
        machine: &Machine,
        left: usize,
        visitor: &mut dyn FnMut(Vec<u8>),
    ) {
        visitor(encode_all(events));
        if left == 0 {
            return;
        }
        for letter in &self.letters {
            events.push(*letter);
            if machine.fault(letter).is_none() {
                let mut after = machine.clone();
                after.step(letter);
                self.extend(events, &after, left - 1, visitor);
            } else {
                visitor(encode_all(events));
            }
            events.pop();
        }
    }
}
