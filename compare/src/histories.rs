//! Random possible histories.

use reference::conflict::conflict;
use reference::machine::Machine;
use reference::record::{Event, Operation};

use crate::numbers::Numbers;

/// What the threads of one history are like.
#[derive(Clone)]
pub struct Habits {
    pub threads: usize,
    pub variables: usize,
    pub locks: usize,
    pub values: usize,
    /// How often each kind is tried, kinds 1 to 10.
    pub weights: [usize; 10],
    /// In a hundred: the thread that acted last acts again.
    pub stays: usize,
    /// In a hundred: a thread yields before another acts.
    pub polite: usize,
    /// All threads are forked first, and then thread 0 yields or not.
    pub forks_first: bool,
    pub yields_after_forks: bool,
}

impl Habits {
    /// Habits for a history of so many records: in a short one few threads, so that they meet.
    pub fn any(records: usize, numbers: &mut Numbers) -> Habits {
        let mut weights = [0; 10];
        for weight in &mut weights {
            *weight = numbers.one_of(&[0, 5, 10, 20, 40]);
        }
        // Some reads and writes always; joins seldom, for they end a thread; yields from none to most.
        weights[0] += 10;
        weights[1] += 10;
        weights[8] = numbers.one_of(&[0, 0, 1, 2, 10]);
        weights[9] = numbers.one_of(&[0, 0, 2, 10, 40, 200]);
        Habits {
            threads: numbers.one_of(&[1, 2, 2, 3, 3, 4, 5, 8, 16]).min(2 + records / 6),
            variables: numbers.one_of(&[1, 1, 2, 3, 8, 256]),
            locks: numbers.one_of(&[1, 1, 2, 4, 32]),
            values: numbers.one_of(&[1, 2, 3, 65536]),
            weights,
            stays: numbers.one_of(&[0, 0, 30, 60, 90]),
            polite: numbers.one_of(&[0, 0, 0, 20, 60, 90]),
            forks_first: numbers.percent(75),
            yields_after_forks: numbers.percent(60),
        }
    }

    /// Threads change only where a transaction ends, so that the history is serial.
    pub fn serial(records: usize, numbers: &mut Numbers) -> Habits {
        let habits = Habits::any(records, numbers);
        Habits {
            threads: habits.threads.max(2),
            polite: 100,
            yields_after_forks: true,
            stays: numbers.one_of(&[30, 60, 80]),
            ..habits
        }
    }
}

/// A history that grows by possible events only.
pub struct History {
    pub events: Vec<Event>,
    pub machine: Machine,
    last: u8,
    turns: usize,
}

impl History {
    pub fn new() -> History {
        History { events: Vec::new(), machine: Machine::fresh(), last: 0, turns: 0 }
    }

    /// There are fewer records than this, and there was not turn after turn without a new one.
    pub fn short_of(&mut self, records: usize) -> bool {
        self.turns += 1;
        self.events.len() < records && self.turns <= 8 * records
    }

    /// Adds an event if it is possible, and says so.
    pub fn add(&mut self, thread: u8, operation: Operation) -> bool {
        let event = Event { thread, operation };
        if self.machine.fault(&event).is_some() {
            return false;
        }
        self.machine.step(&event);
        self.events.push(event);
        self.last = thread;
        true
    }

    /// Reads whatever the variable holds; 0 where that isn't known.
    pub fn read(&mut self, thread: u8, variable: u8) -> bool {
        let value = self.machine.variables[usize::from(variable)].unwrap_or(0);
        self.add(thread, Operation::Read { variable, value })
    }

    pub fn write(&mut self, thread: u8, variable: u8, value: u16) -> bool {
        self.add(thread, Operation::Write { variable, value })
    }

    /// Thread 0 forks threads 1 to `threads` - 1, from the last or from the first.
    pub fn fork_all(&mut self, threads: usize, from_the_last: bool) {
        for step in 1..threads {
            let thread = if from_the_last { threads - step } else { step } as u8;
            self.add(0, Operation::Fork { thread });
        }
    }

    fn grow(&mut self, habits: &Habits, numbers: &mut Numbers) -> bool {
        for _ in 0..60 {
            let stays = numbers.percent(habits.stays);
            let thread = if stays { self.last } else { numbers.below(habits.threads) as u8 };
            if thread != self.last && numbers.percent(habits.polite) && !self.at_an_end() {
                let _ = self.add(self.last, Operation::Yield);
                return true;
            }
            let operation = self.operation(thread, habits, numbers);
            if self.add(thread, operation) {
                return true;
            }
        }
        (0..16).any(|thread| self.add(thread, Operation::Yield))
    }

    /// The thread that acted last has ended a transaction, or can't act.
    fn at_an_end(&self) -> bool {
        let over =
            |event: &Event| matches!(event.operation, Operation::Yield | Operation::Prewait { .. });
        self.events.iter().rev().find(|e| e.thread == self.last).is_none_or(over)
            || self.machine.joined[usize::from(self.last)]
    }

    fn operation(&self, thread: u8, habits: &Habits, numbers: &mut Numbers) -> Operation {
        if let Some(lock) = self.machine.waits[usize::from(thread)] {
            return Operation::Postwait { lock };
        }
        let variable = numbers.below(habits.variables) as u8;
        let value = numbers.below(habits.values) as u16;
        let free = numbers.below(habits.locks) as u8;
        let held = self.held(thread, numbers).unwrap_or(free);
        let other = numbers.below(habits.threads) as u8;
        match pick(&habits.weights, numbers) {
            0 => {
                // A first read gives any value.
                let value = self.machine.variables[usize::from(variable)].unwrap_or(value);
                Operation::Read { variable, value }
            }
            1 => Operation::Write { variable, value },
            2 => Operation::Acquire { lock: free },
            3 => Operation::Release { lock: held },
            4 => Operation::Prewait { lock: held },
            5 => Operation::Postwait { lock: held },
            6 => Operation::Notify { lock: held },
            7 => Operation::Fork { thread: other },
            8 => Operation::Join { thread: other },
            _ => Operation::Yield,
        }
    }

    /// Some lock that the thread holds.
    fn held(&self, thread: u8, numbers: &mut Numbers) -> Option<u8> {
        let locks: Vec<u8> =
            (0..32).filter(|l| self.machine.holders[usize::from(*l)] == Some(thread)).collect();
        (!locks.is_empty()).then(|| numbers.one_of(&locks))
    }
}

fn pick(weights: &[usize], numbers: &mut Numbers) -> usize {
    let mut left = numbers.below(weights.iter().sum());
    for (place, weight) in weights.iter().enumerate() {
        if left < *weight {
            return place;
        }
        left -= weight;
    }
    unreachable!("the number is below the sum of the weights")
}

/// A possible history of so many records, or fewer if nothing more is possible.
pub fn possible(habits: &Habits, records: usize, numbers: &mut Numbers) -> Vec<Event> {
    let mut history = History::new();
    if habits.forks_first {
        history.fork_all(habits.threads, numbers.percent(30));
        if habits.yields_after_forks {
            history.add(0, Operation::Yield);
        }
    }
    while history.events.len() < records && history.grow(habits, numbers) {}
    history.events.truncate(records);
    history.events
}

/// Swaps neighbours that don't conflict, at random places, so many times.
pub fn stir(events: &mut [Event], times: usize, numbers: &mut Numbers) {
    if events.len() < 2 {
        return;
    }
    for _ in 0..times {
        let left = numbers.below(events.len() - 1);
        if !conflict(&events[left], &events[left + 1]) {
            events.swap(left, left + 1);
        }
    }
}

/// A cooperable history that mostly isn't serial: a serial one, stirred.
pub fn stirred(records: usize, numbers: &mut Numbers) -> Vec<Event> {
    let habits = Habits::serial(records, numbers);
    stirred_with(&habits, records, numbers)
}

fn stirred_with(habits: &Habits, records: usize, numbers: &mut Numbers) -> Vec<Event> {
    let mut events = possible(habits, records, numbers);
    let times = events.len() * numbers.one_of(&[1, 4, 16]);
    stir(&mut events, times, numbers);
    events
}

/// A stirred history in which some yield marks are missing: it is possible all the same, and often
/// a violation, late and over several transactions.
pub fn with_marks_left_out(records: usize, numbers: &mut Numbers) -> Vec<Event> {
    let serial = Habits::serial(records, numbers);
    // Few variables and short turns, so that something comes between.
    let habits = Habits { variables: 1 + numbers.below(4), stays: 40, ..serial };
    let mut events = stirred_with(&habits, records + records / 8, numbers);
    let left_out = numbers.one_of(&[1, 10, 30, 60]);
    let mut one_more = true;
    events.retain(|event| {
        let is_yield = event.operation == Operation::Yield;
        let goes = is_yield && (numbers.percent(left_out) || (one_more && numbers.percent(20)));
        one_more &= !goes;
        !goes
    });
    events.truncate(records);
    events
}

#[cfg(test)]
mod tests {
    use super::*;
    use reference::record::encode_all;
    use reference::{judge, Answer};

    fn answer(events: &[Event]) -> Answer {
        let input = encode_all(events);
        judge(&input, &mut vec![0; input.len()], &mut vec![0; 4096])
    }

    #[test]
    fn possible_histories_are_not_refused_and_stirred_ones_are_cooperable() {
        let mut numbers = Numbers::from_seed(3);
        for round in 0..2000 {
            let records = 1 + round % 40;
            let habits = Habits::any(records, &mut numbers);
            let plain = answer(&possible(&habits, records, &mut numbers));
            assert!(!matches!(plain, Answer::Refused { .. }), "{plain:?}");
            let stirred = answer(&stirred(records, &mut numbers));
            assert!(matches!(stirred, Answer::Cooperable { .. }), "{stirred:?}");
        }
    }

    #[test]
    fn leaving_out_marks_often_makes_a_violation() {
        let mut numbers = Numbers::from_seed(4);
        let histories = (0..500).map(|_| with_marks_left_out(40, &mut numbers));
        let violations =
            histories.filter(|h| matches!(answer(h), Answer::Violation { .. })).count();
        assert!(violations > 50, "{violations}");
    }
}
