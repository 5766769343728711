//! The whole answer, and the final contents of output and work area.

use crate::graph::{edges, first_cycle, reported_cycle, serial_order};
use crate::machine::Machine;
use crate::record::{decode, encode, Event, RECORD_LENGTH};
use crate::transactions::{count, transactions};

pub const MOST_BYTES: usize = 8192;
pub const MOST_TRANSACTIONS: usize = 512;
pub const WORK_AREA: usize = 4096;

#[derive(Clone, Copy, Debug, PartialEq, Eq)]
pub enum Answer {
    Cooperable { records: u64, transactions: u64 },
    Violation { record: u64, length: u64 },
    Refused { number: u64, record: u64 },
}

/// The number of a refusal, and its record or line.
pub type Refusal = (u8, usize);

fn refused(number: u8, record: usize) -> Answer {
    Answer::Refused { number: u64::from(number), record: record as u64 }
}

/// Judges a recording. The output and the work area are lent, and end as document 01 says.
pub fn judge(input: &[u8], out: &mut [u8], work: &mut [u64]) -> Answer {
    if let Some(number) = fault_of_lengths(input, out, work) {
        return refused(number, 0);
    }
    let events = match possible_history(input) {
        Ok(events) => events,
        Err((number, record)) => return refused(number, record),
    };
    let answer = match verdict(&events) {
        Verdict::Cooperable { order } => {
            write_trace(&events, &order, out);
            let (records, transactions) = (events.len() as u64, order.len() as u64);
            Answer::Cooperable { records, transactions }
        }
        Verdict::Violation { record, cycle } => {
            write_numbers(&cycle, out);
            Answer::Violation { record: record as u64, length: cycle.len() as u64 }
        }
    };
    work[..WORK_AREA].fill(0);
    answer
}

fn fault_of_lengths(input: &[u8], out: &[u8], work: &[u64]) -> Option<u8> {
    let short = (out.len() < input.len()).then_some(3);
    fault_of_input(input).or(short).or(fault_of_work(work))
}

/// 1 or 2.
pub(crate) fn fault_of_input(input: &[u8]) -> Option<u8> {
    if input.len() % RECORD_LENGTH != 0 {
        return Some(1);
    }
    (input.len() > MOST_BYTES).then_some(2)
}

pub(crate) fn fault_of_work(work: &[u64]) -> Option<u8> {
    (work.len() < WORK_AREA).then_some(4)
}

/// The events, or the first record with any fault and its lowest number.
pub fn possible_history(input: &[u8]) -> Result<Vec<Event>, Refusal> {
    let mut events: Vec<Event> = Vec::new();
    let mut machine = Machine::fresh();
    for (record, bytes) in input.chunks(RECORD_LENGTH).enumerate() {
        if let Some(number) = faults(&machine, &events, bytes).first() {
            return Err((*number, record));
        }
        let event = decode(bytes).expect("a record without a fault is an event");
        machine.step(&event);
        events.push(event);
    }
    Ok(events)
}

/// The numbers of refusal that the next record meets, lowest first. What is not an event has no
/// more than the first of 5 to 7.
pub fn faults(machine: &Machine, before: &[Event], bytes: &[u8]) -> Vec<u8> {
    let event = match decode(bytes) {
        Ok(event) => event,
        Err(number) => return vec![number],
    };
    let mut numbers: Vec<u8> = machine.fault(&event).into_iter().collect();
    let mut history = before.to_vec();
    history.push(event);
    if count(&transactions(&history)) > MOST_TRANSACTIONS {
        numbers.push(13);
    }
    numbers
}

pub(crate) enum Verdict {
    Cooperable { order: Vec<usize> },
    Violation { record: usize, cycle: Vec<usize> },
}

/// What is said of a possible history: its serial order, or its cycle.
pub(crate) fn verdict(events: &[Event]) -> Verdict {
    let numbers = transactions(events);
    if let Some((record, edges)) = first_cycle(events, &numbers) {
        let cycle = reported_cycle(&edges, numbers[record]);
        return Verdict::Violation { record, cycle };
    }
    let threads: Vec<u8> =
        (0..count(&numbers)).map(|number| events[first_record(&numbers, number)].thread).collect();
    Verdict::Cooperable { order: serial_order(&edges(events, &numbers), &threads) }
}

/// The record that begins a transaction.
pub(crate) fn first_record(numbers: &[usize], number: usize) -> usize {
    numbers.iter().position(|n| *n == number).expect("no transaction is empty")
}

fn write_trace(events: &[Event], order: &[usize], out: &mut [u8]) {
    let numbers = transactions(events);
    let mut written = 0;
    for number in order {
        for (event, _) in events.iter().zip(&numbers).filter(|(_, n)| *n == number) {
            out[written..written + RECORD_LENGTH].copy_from_slice(&encode(event));
            written += RECORD_LENGTH;
        }
    }
}

fn write_numbers(cycle: &[usize], out: &mut [u8]) {
    for (place, number) in cycle.iter().enumerate() {
        out[2 * place] = (number % 256) as u8;
        out[2 * place + 1] = (number / 256) as u8;
    }
}
