//! The replay machine: what a history may do next, and what that changes.

use crate::record::{Event, Operation};

/// Everything that the machine remembers.
#[derive(Clone, Debug, PartialEq, Eq, Hash)]
pub struct Machine {
    /// The value of each variable, once a read or a write has made it known.
    pub variables: [Option<u16>; 256],
    /// The thread that holds each lock.
    pub holders: [Option<u8>; 32],
    pub forked: [bool; 16],
    pub joined: [bool; 16],
    /// The lock that each thread waits on.
    pub waits: [Option<u8>; 16],
}

impl Machine {
    /// No variable's value is known, every lock is free, thread 0 exists, nobody waits or has been
    /// joined.
    pub fn fresh() -> Machine {
        let mut forked = [false; 16];
        forked[0] = true;
        Machine {
            variables: [None; 256],
            holders: [None; 32],
            forked,
            joined: [false; 16],
            waits: [None; 16],
        }
    }

    /// The lowest number of refusal, 8 to 12, that this event meets now.
    pub fn fault(&self, event: &Event) -> Option<u8> {
        if self.cannot_act(event) {
            return Some(8);
        }
        if self.breaks_a_wait(event) {
            return Some(9);
        }
        if self.misuses_a_lock(event) {
            return Some(10);
        }
        if self.misuses_a_thread(event) {
            return Some(11);
        }
        if self.reads_another_value(event) {
            return Some(12);
        }
        None
    }

    fn cannot_act(&self, event: &Event) -> bool {
        let thread = usize::from(event.thread);
        !self.forked[thread] || self.joined[thread]
    }

    fn breaks_a_wait(&self, event: &Event) -> bool {
        let waits_on = self.waits[usize::from(event.thread)];
        match event.operation {
            Operation::Postwait { lock } => waits_on != Some(lock),
            _ => waits_on.is_some(),
        }
    }

    fn misuses_a_lock(&self, event: &Event) -> bool {
        match event.operation {
            Operation::Acquire { lock } | Operation::Postwait { lock } => {
                self.holders[usize::from(lock)].is_some()
            }
            Operation::Release { lock }
            | Operation::Prewait { lock }
            | Operation::Notify { lock } => self.holders[usize::from(lock)] != Some(event.thread),
            _ => false,
        }
    }

    fn misuses_a_thread(&self, event: &Event) -> bool {
        match event.operation {
            Operation::Fork { thread } => self.forked[usize::from(thread)],
            Operation::Join { thread } => {
                thread == event.thread || !self.forked[usize::from(thread)]
            }
            _ => false,
        }
    }

    fn reads_another_value(&self, event: &Event) -> bool {
        match event.operation {
            Operation::Read { variable, value } => {
                self.variables[usize::from(variable)].is_some_and(|known| known != value)
            }
            _ => false,
        }
    }

    /// Does an event that has no fault.
    pub fn step(&mut self, event: &Event) {
        let acting = usize::from(event.thread);
        match event.operation {
            Operation::Notify { .. } | Operation::Yield => {}
            Operation::Read { variable, value } | Operation::Write { variable, value } => {
                self.variables[usize::from(variable)] = Some(value);
            }
            Operation::Acquire { lock } => self.holders[usize::from(lock)] = Some(event.thread),
            Operation::Release { lock } => self.holders[usize::from(lock)] = None,
            Operation::Prewait { lock } => {
                self.holders[usize::from(lock)] = None;
                self.waits[acting] = Some(lock);
            }
            Operation::Postwait { lock } => {
                self.holders[usize::from(lock)] = Some(event.thread);
                self.waits[acting] = None;
            }
            Operation::Fork { thread } => self.forked[usize::from(thread)] = true,
            Operation::Join { thread } => self.joined[usize::from(thread)] = true,
        }
    }
}

/// The final state of a history from the fresh state, if it is possible.
pub fn run(events: impl IntoIterator<Item = Event>) -> Option<Machine> {
    let mut machine = Machine::fresh();
    for event in events {
        if machine.fault(&event).is_some() {
            return None;
        }
        machine.step(&event);
    }
    Some(machine)
}
