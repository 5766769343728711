//! Proposed yields: recordings that need them, and what a finished recording is held to.

use std::ffi::OsStr;
use std::fs;
use std::path::{Path, PathBuf};

use reference::propose::{report, walk};
use reference::record::{encode, encode_all, Event, Operation, RECORD_LENGTH};
use reference::words::events;
use reference::{possible_history, Answer};

use crate::case::Case;
use crate::histories::{possible, Habits, History};
use crate::library;
use crate::numbers::Numbers;
use crate::program::{shown, Program};

/// Of more added yields than this only some are dropped, the first and the last among them.
const MOST_DROPPED: usize = 48;

/// A possible history in which hardly anybody yields.
fn unmarked(numbers: &mut Numbers) -> Vec<Event> {
    let records = match numbers.below(8) {
        0 => 300 + numbers.below(725),
        1..=2 => 60 + numbers.below(200),
        _ => 4 + numbers.below(50),
    };
    let mut habits = Habits { polite: 0, ..Habits::any(records, numbers) };
    habits.threads = habits.threads.max(2);
    habits.weights[9] = numbers.one_of(&[0, 0, 1, 5]);
    possible(&habits, records, numbers)
}

/// As many records as may be, by threads that meet on few variables, so that most of them need a
/// yield. Some touch what is their thread's alone, some are marks.
fn crowded(numbers: &mut Numbers) -> Vec<Event> {
    let threads = 2 + numbers.below(15);
    let variables = numbers.one_of(&[1, 1, 2, 4]);
    // With many marks the transactions run out before the records do.
    let (alone, marks) =
        numbers.one_of(&[(0, 0), (3, 0), (20, 3), (60, 0), (0, 20), (0, 40), (0, 45), (3, 40)]);
    let mut history = History::new();
    history.fork_all(threads, false);
    while history.short_of(1024) {
        let thread = numbers.below(threads) as u8;
        let variable = numbers.below(variables) as u8;
        match numbers.below(100) {
            lot if lot < alone => history.write(thread, 100 + thread, 1),
            lot if lot < alone + marks => history.add(thread, Operation::Yield),
            lot if lot % 4 == 0 => history.read(thread, variable),
            _ => history.write(thread, variable, 1),
        };
    }
    history.events
}

/// The history, and, if the walk refuses it, the longest part that it takes, and one record more.
fn cut_at_the_limit(events: &[Event]) -> Vec<Vec<u8>> {
    let mut parts = vec![encode_all(events)];
    if let Err((_, record)) = walk(events) {
        parts.extend([encode_all(&events[..record]), encode_all(&events[..=record])]);
    }
    parts
}

/// Two threads write one variable in turn, which makes 512 transactions in 1,022 records. With one or
/// two records before and some behind, both limits are met at once, or one by one.
fn at_both_limits() -> Vec<Vec<u8>> {
    let beginnings = ["0 fork 1\n", "0 acquire 0\n0 fork 1\n"];
    let ends = [
        "",
        "0 write 0 0\n",
        "1 write 0 0\n",
        "1 read 1 0\n0 write 0 0\n",
        "1 yield\n1 yield\n",
        "0 fork 2\n2 yield\n",
        "0 join 1\n0 yield\n",
    ];
    let mut inputs = Vec::new();
    for beginning in beginnings {
        for writes in [511, 512] {
            let turns: String = (0..writes).map(|n| format!("{} write 0 0\n", n % 2)).collect();
            let whole = |end: &&str| encode_all(&events(&format!("{beginning}{turns}{end}")));
            inputs.extend(ends.iter().map(whole));
        }
    }
    inputs
}

/// The limits, so many unmarked histories, and a fifth as many crowded ones, cut at the limit.
pub fn recordings(count: u64, numbers: &mut Numbers) -> Vec<Vec<u8>> {
    let mut inputs = at_both_limits();
    inputs.extend((0..count).map(|_| encode_all(&unmarked(numbers))));
    for _ in 0..count.div_ceil(5) {
        inputs.extend(cut_at_the_limit(&crowded(numbers)));
    }
    inputs
}

/// Says what the recordings show, by the reference.
pub fn print(inputs: &[Vec<u8>]) {
    let texts: Vec<String> = inputs
        .iter()
        .map(|input| String::from_utf8(report(input).text).expect("words and numbers"))
        .collect();
    let yields: Vec<usize> = texts
        .iter()
        .filter_map(|text| text.strip_prefix("proposed ")?.split(' ').next()?.parse().ok())
        .collect();
    let by = |number: &str| {
        let refused = texts.iter().zip(inputs).filter(|(text, input)| {
            text.starts_with(&format!("refused {number} ")) && possible_history(input).is_ok()
        });
        refused.count()
    };
    println!(
        "of proposals: {} finished, {} of them with yields ({} in all, to {}), the walk refuses by 13: {}, by 15: {}",
        yields.len(),
        yields.iter().filter(|yields| **yields > 0).count(),
        yields.iter().sum::<usize>(),
        yields.iter().max().unwrap_or(&0),
        by("13"),
        by("15")
    );
}

/// A file of this process, which isn't there.
pub fn new_file() -> PathBuf {
    std::env::temp_dir().join(format!("quelohuite-{}.rec", std::process::id()))
}

/// What is wrong with what the program prints, or with the file that it writes, in words.
pub fn difference(program: &Program, file: &Path, input: &[u8], pieces: usize) -> Option<String> {
    let expected = report(input);
    let alone: [&OsStr; 0] = [];
    for words in [&alone[..], &[file.as_os_str()]] {
        match program.printed_with(words, input, pieces) {
            Ok(printed) if printed == expected.text => {}
            Ok(printed) => {
                let (ours, theirs) = (shown(&printed), shown(&expected.text));
                return Some(format!("propose {words:?} prints:\n{ours}\nreference:\n{theirs}"));
            }
            Err(error) => return Some(format!("propose {words:?}: {error}")),
        }
    }
    let written = fs::read(file).ok();
    let _ = fs::remove_file(file);
    if written != expected.file {
        let length = |file: &Option<Vec<u8>>| file.as_ref().map(Vec::len);
        let (ours, theirs) = (length(&written), length(&expected.file));
        return Some(format!("the files differ, of {ours:?} and {theirs:?} bytes"));
    }
    broken_word(input, &written?, &String::from_utf8_lossy(&expected.text))
}

/// What document 02 says of a finished recording, and this one isn't: it is cooperable; it is the
/// input once the added yields are taken out; and without any single one of them it is a violation
/// at the very record that yield stood before.
fn broken_word(input: &[u8], finished: &[u8], text: &str) -> Option<String> {
    if !matches!(judged(finished), Answer::Cooperable { .. }) {
        return Some(format!("the finished recording: {:?}", judged(finished)));
    }
    let added: Vec<(usize, [u8; RECORD_LENGTH])> =
        text.lines().skip(1).enumerate().map(|(nth, line)| placed(nth, line)).collect();
    let mut left = finished.to_vec();
    for (place, mark) in added.iter().rev() {
        if left.drain(RECORD_LENGTH * place..RECORD_LENGTH * (place + 1)).ne(*mark) {
            return Some(format!("record {place} of the finished recording isn't that yield"));
        }
    }
    if left != input {
        return Some("without the added yields it isn't the input".to_string());
    }
    let step = added.len().div_ceil(MOST_DROPPED).max(1);
    let last = added.len().saturating_sub(1);
    added.iter().enumerate().filter(|(nth, _)| nth % step == 0 || *nth == last).find_map(
        |(_, (place, _))| {
            let mut without = finished.to_vec();
            without.drain(RECORD_LENGTH * place..RECORD_LENGTH * (place + 1));
            match judged(&without) {
                Answer::Violation { record, .. } if record == *place as u64 => None,
                answer => Some(format!("without the yield at {place}: {answer:?}")),
            }
        },
    )
}

fn judged(input: &[u8]) -> Answer {
    let left = Case::plain(input.to_vec()).lent().left_by(library::judge);
    left.expect("the library doesn't stop").answer
}

/// The place of an added yield in the finished recording, where so many were added before it, and
/// the yield.
fn placed(nth: usize, line: &str) -> (usize, [u8; RECORD_LENGTH]) {
    let (thread, record) = line.split_once(' ').expect("a thread and a record");
    let thread = thread.parse().expect("a thread");
    let record: usize = record.parse().expect("a record");
    (record + nth, encode(&Event { thread, operation: Operation::Yield }))
}

#[cfg(test)]
mod tests {
    use super::*;

    #[test]
    fn a_broken_word_is_seen() {
        let input = encode_all(&events("0 fork 1\n0 read 0 0\n1 write 0 1\n0 write 0 1\n"));
        let with = |text: &str| encode_all(&events(text));
        let right = with("0 fork 1\n0 read 0 0\n1 write 0 1\n0 yield\n0 write 0 1\n");
        let early = with("0 fork 1\n0 yield\n0 read 0 0\n1 write 0 1\n0 write 0 1\n");
        let twice = with("0 fork 1\n0 yield\n0 read 0 0\n1 write 0 1\n0 yield\n0 write 0 1\n");
        assert_eq!(broken_word(&input, &right, "proposed 1 5\n0 3\n"), None);
        for (finished, text, said) in [
            (&input, "proposed 0 4\n", "the finished recording: Violation"),
            (&right, "proposed 0 5\n", "without the added yields it isn't the input"),
            (&right, "proposed 1 5\n0 2\n", "record 2 of the finished recording isn't that yield"),
            (&right, "proposed 1 5\n1 3\n", "record 3 of the finished recording isn't that yield"),
            (&early, "proposed 1 5\n0 1\n", "the finished recording: Violation"),
            (&twice, "proposed 2 6\n0 1\n0 3\n", "without the yield at 1: Cooperable"),
        ] {
            let words = broken_word(&input, finished, text).unwrap_or_default();
            assert!(words.starts_with(said), "{words}");
        }
    }
}
