//! Which transaction each operation belongs to.

use crate::record::{Event, Operation};

/// Whether `event` begins a new transaction, where `previous` is the thread's previous operation.
fn begins(event: &Event, previous: Option<Operation>) -> bool {
    let after_the_last_of_one =
        matches!(previous, None | Some(Operation::Yield) | Some(Operation::Prewait { .. }));
    after_the_last_of_one || matches!(event.operation, Operation::Join { .. })
}

/// The number of each event's transaction, in the order of the events.
/// Transactions are numbered from 0 in the order of their first operations.
pub fn transactions(events: &[Event]) -> Vec<usize> {
    let mut previous: [Option<Operation>; 16] = [None; 16];
    let mut current: [Option<usize>; 16] = [None; 16];
    let mut begun = 0;
    let mut numbers = Vec::new();
    for event in events {
        let thread = usize::from(event.thread);
        if begins(event, previous[thread]) {
            current[thread] = Some(begun);
            begun += 1;
        }
        previous[thread] = Some(event.operation);
        numbers.push(current[thread].expect("a thread's first operation begins a transaction"));
    }
    numbers
}

/// How many transactions there are.
pub fn count(numbers: &[usize]) -> usize {
    numbers.iter().map(|number| number + 1).max().unwrap_or(0)
}

/// A trace is serial if the operations of each transaction stand together.
pub fn serial(events: &[Event]) -> bool {
    let numbers = transactions(events);
    (0..count(&numbers)).all(|number| stand_together(&numbers, number))
}

fn stand_together(numbers: &[usize], number: usize) -> bool {
    let first = numbers.iter().position(|n| *n == number).expect("no transaction is empty");
    let last = numbers.iter().rposition(|n| *n == number).expect("no transaction is empty");
    numbers[first..=last].iter().all(|n| *n == number)
}

#[cfg(test)]
mod tests {
    use super::*;
    use crate::words::events;

    #[test]
    fn yield_and_prewait_are_the_last_and_join_is_the_first() {
        let history = events(
            "0 fork 1\n1 yield\n1 yield\n0 join 1\n0 acquire 0\n0 prewait 0\n0 postwait 0\n0 join 1\n",
        );
        assert_eq!(transactions(&history), [0, 1, 2, 3, 3, 3, 4, 5]);
    }

    #[test]
    fn serial_traces() {
        assert!(serial(&[]));
        assert!(serial(&events("0 fork 1\n0 yield\n1 yield\n0 yield\n")));
        assert!(!serial(&events("0 fork 1\n1 yield\n0 yield\n")));
    }
}
