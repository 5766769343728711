//! Recordings for people: tests are written, and failing cases printed, in the written form.

use crate::record::{decode, Event, RECORD_LENGTH};
use crate::text::{line, read};

/// Eight bytes as their line, or as they are if they say no event.
pub fn words_of_bytes(bytes: &[u8]) -> String {
    let as_they_are = || bytes.iter().map(|b| format!("{b:02X}")).collect::<Vec<_>>().join(" ");
    if bytes.len() != RECORD_LENGTH {
        return format!("bytes {}", as_they_are());
    }
    match decode(bytes) {
        Ok(event) => line(&event),
        Err(number) => format!("bytes {} (fault {number})", as_they_are()),
    }
}

/// The events of a text in the written form. Panics on anything else.
pub fn events(text: &str) -> Vec<Event> {
    let mut records = vec![0; RECORD_LENGTH * text.lines().count()];
    if let Err((number, place)) = read(text.as_bytes(), &mut records) {
        panic!("refused {number} {place}: {text}");
    }
    records
        .chunks(RECORD_LENGTH)
        .map(|record| decode(record).expect("a line is an event"))
        .collect()
}

#[cfg(test)]
mod tests {
    use super::*;

    #[test]
    fn a_failing_case_is_printed_in_the_written_form() {
        assert_eq!(words_of_bytes(&[0xA7, 0x7A, 2, 0, 3, 0, 5, 0]), "0 write 3 5");
        assert_eq!(words_of_bytes(&[0xA7, 0x7A, 10, 16]), "bytes A7 7A 0A 10");
        let faulty = [0xA7, 0x7A, 10, 16, 0, 0, 0, 0];
        assert_eq!(words_of_bytes(&faulty), "bytes A7 7A 0A 10 00 00 00 00 (fault 7)");
    }

    #[test]
    #[should_panic(expected = "refused 14 1")]
    fn a_test_recording_without_the_form_stops_the_test() {
        events("0 fork 1\n0 read v0 0\n");
    }
}
