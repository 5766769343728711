//! Recordings that something has happened to, and records with a fault that is asked for.

use reference::faults;
use reference::machine::Machine;
use reference::record::{encode, encode_all, Event, Operation, RECORD_LENGTH};

use crate::numbers::Numbers;

/// Damages the bytes one to three times.
pub fn damaged(events: &[Event], numbers: &mut Numbers) -> Vec<u8> {
    let mut bytes = encode_all(events);
    for _ in 0..numbers.one_of(&[1, 1, 1, 2, 3]) {
        damage(&mut bytes, numbers);
    }
    bytes
}

fn damage(bytes: &mut Vec<u8>, numbers: &mut Numbers) {
    if bytes.len() < RECORD_LENGTH {
        bytes.push(numbers.byte());
        return;
    }
    let at = numbers.below(bytes.len());
    match numbers.below(12) {
        0 => bytes[at] ^= 1 << numbers.below(8),
        1 => bytes[at] = numbers.byte(),
        2 => bytes.truncate(at),
        3 => bytes.truncate(at - at % RECORD_LENGTH),
        4 => bytes.extend((0..1 + numbers.below(9)).map(|_| 0xA7)),
        5 => bytes.drain(at..at + 1).for_each(drop),
        _ => damage_records(bytes, numbers),
    }
}

fn damage_records(bytes: &mut Vec<u8>, numbers: &mut Numbers) {
    let records = bytes.len() / RECORD_LENGTH;
    let at = RECORD_LENGTH * numbers.below(records);
    let other = RECORD_LENGTH * numbers.below(records);
    let one: Vec<u8> = bytes[at..at + RECORD_LENGTH].to_vec();
    match numbers.below(8) {
        0 => bytes.drain(at..at + RECORD_LENGTH).for_each(drop),
        1 => insert(bytes, other, &one),
        2 => exchange(bytes, at, other),
        3 => exchange(bytes, at, (at + RECORD_LENGTH) % (RECORD_LENGTH * records)),
        4 => bytes[at + 6] = bytes[at + 6].wrapping_add(1),
        5 => bytes[at + 3] = numbers.below(17) as u8,
        6 => bytes[at + 2] = numbers.below(12) as u8,
        _ => bytes[at + 4] = numbers.below(34) as u8,
    }
}

fn insert(bytes: &mut Vec<u8>, at: usize, record: &[u8]) {
    bytes.splice(at..at, record.iter().copied());
}

fn exchange(bytes: &mut [u8], one: usize, other: usize) {
    for byte in 0..RECORD_LENGTH {
        bytes.swap(one + byte, other + byte);
    }
}

/// The recording with a record put in at a random place that is refused by `number`, 5 to 12,
/// where such a record was found. What follows is left there: only the first fault counts.
pub fn refused_by(number: u8, events: &[Event], numbers: &mut Numbers) -> Vec<u8> {
    let place = numbers.below(events.len() + 1);
    let mut machine = Machine::fresh();
    for event in &events[..place] {
        machine.step(event);
    }
    let mut bytes = encode_all(events);
    for _ in 0..400 {
        let record = faulty(number, &machine, numbers);
        if faults(&machine, &events[..place], &record).first() == Some(&number) {
            let until = if numbers.percent(50) { place + 1 } else { place };
            let until = (RECORD_LENGTH * until).min(bytes.len());
            bytes.splice(RECORD_LENGTH * place..until, record);
            break;
        }
    }
    bytes
}

/// A record that may well be refused by `number`.
fn faulty(number: u8, machine: &Machine, numbers: &mut Numbers) -> [u8; RECORD_LENGTH] {
    let thread = numbers.below(16) as u8;
    let mut record = encode(&Event { thread, operation: any_operation(machine, numbers) });
    match number {
        5 => record[numbers.below(2)] = numbers.byte(),
        6 => record[2] = numbers.one_of(&[0, 11, 12, 128, 255]),
        7 => match numbers.below(4) {
            0 => record[3] = numbers.one_of(&[16, 17, 255]),
            1 => record[4] = numbers.one_of(&[1, 16, 32, 255]),
            2 => record[5] = numbers.one_of(&[1, 128, 255]),
            _ => record[6 + numbers.below(2)] = numbers.one_of(&[1, 255]),
        },
        _ => {}
    }
    if number <= 6 && numbers.percent(30) {
        // Other faults at the same record: the lowest number wins.
        record[3 + numbers.below(5)] = numbers.byte();
    }
    record
}

fn any_operation(machine: &Machine, numbers: &mut Numbers) -> Operation {
    let lock = numbers.one_of(&[0, 0, 1, 1, 2, 3, 31]);
    let thread = numbers.below(16) as u8;
    let variable = numbers.one_of(&[0, 0, 1, 2, 255]);
    let right = machine.variables[usize::from(variable)].unwrap_or(0);
    let value = if numbers.percent(50) { right } else { numbers.below(4) as u16 };
    match numbers.below(10) {
        0 => Operation::Read { variable, value },
        1 => Operation::Write { variable, value },
        2 => Operation::Acquire { lock },
        3 => Operation::Release { lock },
        4 => Operation::Prewait { lock },
        5 => Operation::Postwait { lock },
        6 => Operation::Notify { lock },
        7 => Operation::Fork { thread },
        8 => Operation::Join { thread },
        _ => Operation::Yield,
    }
}
