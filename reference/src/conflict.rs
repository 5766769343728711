//! When two operations conflict: the five rules, one function each, and no table.

use crate::record::{Event, Operation};

/// At least one of the five rules holds.
pub fn conflict(one: &Event, other: &Event) -> bool {
    same_thread(one, other)
        || same_variable_and_one_writes(one, other)
        || same_lock(one, other)
        || forks_or_joins_the_thread_of(one, other)
        || forks_or_joins_the_thread_of(other, one)
        || forks_what_is_joined_by(one, other)
        || forks_what_is_joined_by(other, one)
}

pub(crate) fn same_thread(one: &Event, other: &Event) -> bool {
    one.thread == other.thread
}

pub(crate) fn same_variable_and_one_writes(one: &Event, other: &Event) -> bool {
    match (variable(one), variable(other)) {
        (Some(a), Some(b)) => a == b && (writes(one) || writes(other)),
        _ => false,
    }
}

pub(crate) fn same_lock(one: &Event, other: &Event) -> bool {
    match (lock(one), lock(other)) {
        (Some(a), Some(b)) => a == b,
        _ => false,
    }
}

pub(crate) fn forks_or_joins_the_thread_of(one: &Event, other: &Event) -> bool {
    match one.operation {
        Operation::Fork { thread } | Operation::Join { thread } => thread == other.thread,
        _ => false,
    }
}

pub(crate) fn forks_what_is_joined_by(one: &Event, other: &Event) -> bool {
    match (one.operation, other.operation) {
        (Operation::Fork { thread: forked }, Operation::Join { thread: joined }) => {
            forked == joined
        }
        _ => false,
    }
}

pub(crate) fn variable(event: &Event) -> Option<u8> {
    match event.operation {
        Operation::Read { variable, .. } | Operation::Write { variable, .. } => Some(variable),
        _ => None,
    }
}

fn writes(event: &Event) -> bool {
    matches!(event.operation, Operation::Write { .. })
}

pub(crate) fn lock(event: &Event) -> Option<u8> {
    match event.operation {
        Operation::Acquire { lock }
        | Operation::Release { lock }
        | Operation::Prewait { lock }
        | Operation::Postwait { lock }
        | Operation::Notify { lock } => Some(lock),
        _ => None,
    }
}

#[cfg(test)]
mod tests {
    use super::*;
    use crate::words::events;

    fn holds(lines: &str) -> bool {
        let pair = events(lines);
        assert_eq!(pair.len(), 2);
        let there = conflict(&pair[0], &pair[1]);
        assert_eq!(there, conflict(&pair[1], &pair[0]), "conflict is the same both ways");
        there
    }

    #[test]
    fn the_five_rules() {
        assert!(holds("3 yield\n3 read 0 0\n"));
        assert!(!holds("3 yield\n2 yield\n"));
        assert!(!holds("1 read 0 0\n2 read 0 0\n"));
        assert!(holds("1 read 0 0\n2 write 0 0\n"));
        assert!(holds("1 write 0 7\n2 write 0 7\n"));
        assert!(!holds("1 write 0 7\n2 write 1 7\n"));
        assert!(holds("1 notify 2\n2 notify 2\n"));
        assert!(holds("1 acquire 2\n2 postwait 2\n"));
        assert!(!holds("1 acquire 2\n2 acquire 3\n"));
        assert!(!holds("1 write 3 0\n2 acquire 3\n"));
        assert!(holds("1 fork 2\n2 yield\n"));
        assert!(holds("1 join 2\n2 yield\n"));
        assert!(!holds("1 fork 3\n2 yield\n"));
        assert!(holds("1 fork 3\n2 join 3\n"));
        assert!(!holds("1 join 3\n2 join 3\n"));
        assert!(!holds("1 fork 3\n2 fork 3\n"));
    }
}
