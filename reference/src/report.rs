//! What the program prints.

use crate::judge::{
    first_record, judge, possible_history, verdict, Answer, Refusal, Verdict, WORK_AREA,
};
use crate::record::Event;
use crate::transactions::transactions;

/// The program reads no more of its input than this.
pub const MOST_READ: usize = 8200;

/// The whole text for this standard input.
pub fn report(standard_input: &[u8]) -> String {
    let input = &standard_input[..standard_input.len().min(MOST_READ)];
    let mut out = vec![0; MOST_READ];
    let mut work = vec![0; WORK_AREA];
    let answer = judge(input, &mut out, &mut work);
    let mut text = first_line(&answer);
    if let Answer::Refused { .. } = answer {
        return text;
    }
    let events = possible_history(input).expect("it was not refused");
    let numbers = match verdict(&events) {
        Verdict::Cooperable { order } => order,
        Verdict::Violation { cycle, .. } => cycle,
    };
    text.push_str(&lines(&events, &numbers));
    text
}

/// The answer as a line.
pub(crate) fn first_line(answer: &Answer) -> String {
    match answer {
        Answer::Cooperable { records, transactions } => {
            format!("cooperable {records} {transactions}\n")
        }
        Answer::Violation { record, length } => format!("violation {record} {length}\n"),
        Answer::Refused { number, record } => format!("refused {number} {record}\n"),
    }
}

/// A refusal as a line.
pub(crate) fn refused_line((number, place): Refusal) -> String {
    format!("refused {number} {place}\n")
}

/// For each transaction: its number, its thread, its first record.
fn lines(events: &[Event], order: &[usize]) -> String {
    let numbers = transactions(events);
    let line = |number: &usize| {
        let first = first_record(&numbers, *number);
        format!("{number} {} {first}\n", events[first].thread)
    };
    order.iter().map(line).collect()
}
