//! The record: eight bytes, and the operation that they say.

pub const RECORD_LENGTH: usize = 8;
pub const MARK: [u8; 2] = [0xA7, 0x7A];
pub const THREADS: u8 = 16;
pub const LOCKS: u8 = 32;

/// One of ten operations, each with only what its kind has.
#[derive(Clone, Copy, Debug, PartialEq, Eq, Hash)]
pub enum Operation {
    Read { variable: u8, value: u16 },
    Write { variable: u8, value: u16 },
    Acquire { lock: u8 },
    Release { lock: u8 },
    Prewait { lock: u8 },
    Postwait { lock: u8 },
    Notify { lock: u8 },
    Fork { thread: u8 },
    Join { thread: u8 },
    Yield,
}

/// An operation and the thread that acts.
#[derive(Clone, Copy, Debug, PartialEq, Eq, Hash)]
pub struct Event {
    pub thread: u8,
    pub operation: Operation,
}

/// The event that eight bytes say, or the number of refusal: 5, 6 or 7.
pub fn decode(bytes: &[u8]) -> Result<Event, u8> {
    assert_eq!(bytes.len(), RECORD_LENGTH);
    if bytes[0..2] != MARK {
        return Err(5);
    }
    let kind = bytes[2];
    if kind == 0 || kind > 10 {
        return Err(6);
    }
    let thread = bytes[3];
    let target = bytes[4];
    let spare = bytes[5];
    let value = u16::from(bytes[6]) + 256 * u16::from(bytes[7]);
    let target_in_range = match kind {
        1 | 2 => true,
        3..=7 => target < LOCKS,
        8 | 9 => target < THREADS,
        _ => target == 0,
    };
    let value_in_range = kind == 1 || kind == 2 || value == 0;
    if thread >= THREADS || spare != 0 || !target_in_range || !value_in_range {
        return Err(7);
    }
    Ok(Event { thread, operation: operation(kind, target, value) })
}

fn operation(kind: u8, target: u8, value: u16) -> Operation {
    match kind {
        1 => Operation::Read { variable: target, value },
        2 => Operation::Write { variable: target, value },
        3 => Operation::Acquire { lock: target },
        4 => Operation::Release { lock: target },
        5 => Operation::Prewait { lock: target },
        6 => Operation::Postwait { lock: target },
        7 => Operation::Notify { lock: target },
        8 => Operation::Fork { thread: target },
        9 => Operation::Join { thread: target },
        10 => Operation::Yield,
        _ => panic!("no such kind: {kind}"),
    }
}

/// The eight bytes of an event.
pub fn encode(event: &Event) -> [u8; RECORD_LENGTH] {
    let (kind, target, value) = match event.operation {
        Operation::Read { variable, value } => (1, variable, value),
        Operation::Write { variable, value } => (2, variable, value),
        Operation::Acquire { lock } => (3, lock, 0),
        Operation::Release { lock } => (4, lock, 0),
        Operation::Prewait { lock } => (5, lock, 0),
        Operation::Postwait { lock } => (6, lock, 0),
        Operation::Notify { lock } => (7, lock, 0),
        Operation::Fork { thread } => (8, thread, 0),
        Operation::Join { thread } => (9, thread, 0),
        Operation::Yield => (10, 0, 0),
    };
    let [low, high] = value.to_le_bytes();
    [MARK[0], MARK[1], kind, event.thread, target, 0, low, high]
}

/// The bytes of a whole recording.
pub fn encode_all(events: &[Event]) -> Vec<u8> {
    events.iter().flat_map(encode).collect()
}

#[cfg(test)]
mod tests {
    use super::*;

    #[test]
    fn bytes_of_a_write() {
        let event = Event { thread: 0, operation: Operation::Write { variable: 3, value: 0x1205 } };
        let bytes = [0xA7, 0x7A, 2, 0, 3, 0, 0x05, 0x12];
        assert_eq!(encode(&event), bytes);
        assert_eq!(decode(&bytes), Ok(event));
    }

    #[test]
    fn every_record_of_fields_comes_back() {
        for kind in 0..=12u8 {
            for thread in [0, 1, 15, 16, 255] {
                for target in 0..=255u8 {
                    for value in [0, 1, 256, 65535u16] {
                        let [low, high] = value.to_le_bytes();
                        let bytes = [0xA7, 0x7A, kind, thread, target, 0, low, high];
                        if let Ok(event) = decode(&bytes) {
                            assert_eq!(encode(&event), bytes);
                        }
                    }
                }
            }
        }
    }

    #[test]
    fn mark_goes_before_kind_and_kind_before_fields() {
        assert_eq!(decode(&[0xA7, 0x7B, 0, 16, 0, 1, 0, 0]), Err(5));
        assert_eq!(decode(&[0x7A, 0xA7, 1, 0, 0, 0, 0, 0]), Err(5));
        assert_eq!(decode(&[0xA7, 0x7A, 0, 16, 0, 1, 0, 0]), Err(6));
        assert_eq!(decode(&[0xA7, 0x7A, 11, 16, 0, 1, 0, 0]), Err(6));
    }

    #[test]
    fn limits_of_fields() {
        let fault = |kind, thread, target, spare, low, high| {
            decode(&[0xA7, 0x7A, kind, thread, target, spare, low, high]).err()
        };
        assert_eq!(fault(1, 15, 255, 0, 255, 255), None);
        assert_eq!(fault(1, 16, 0, 0, 0, 0), Some(7));
        assert_eq!(fault(1, 0, 0, 1, 0, 0), Some(7));
        for lock_kind in 3..=7 {
            assert_eq!(fault(lock_kind, 0, 31, 0, 0, 0), None);
            assert_eq!(fault(lock_kind, 0, 32, 0, 0, 0), Some(7));
            assert_eq!(fault(lock_kind, 0, 0, 0, 1, 0), Some(7));
            assert_eq!(fault(lock_kind, 0, 0, 0, 0, 1), Some(7));
        }
        for thread_kind in 8..=9 {
            assert_eq!(fault(thread_kind, 0, 15, 0, 0, 0), None);
            assert_eq!(fault(thread_kind, 0, 16, 0, 0, 0), Some(7));
            assert_eq!(fault(thread_kind, 0, 1, 0, 0, 1), Some(7));
        }
        assert_eq!(fault(10, 0, 0, 0, 0, 0), None);
        assert_eq!(fault(10, 0, 1, 0, 0, 0), Some(7));
        assert_eq!(fault(10, 0, 0, 0, 1, 0), Some(7));
    }
}
