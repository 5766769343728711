//! The picture of the graph: the transactions and edges of a whole recording in the DOT language.

use crate::graph::edges;
use crate::judge::{fault_of_input, fault_of_work, possible_history, Refusal, WORK_AREA};
use crate::record::Event;
use crate::report::{refused_line, MOST_READ};
use crate::transactions::{count, transactions};

/// More than the longest text: a line of 12 bytes for each ordered pair of 512 transactions.
const ROOM: usize = 4_000_000;

/// Writes the picture; gives the number of bytes written. That the text doesn't fit is tried last,
/// and then the output is as it was and the work area cleared. Any other refusal leaves both.
pub fn dot(input: &[u8], out: &mut [u8], work: &mut [u64]) -> Result<usize, Refusal> {
    if let Some(number) = fault_of_input(input).or(fault_of_work(work)) {
        return Err((number, 0));
    }
    let text = picture(&possible_history(input)?);
    work[..WORK_AREA].fill(0);
    if out.len() < text.len() {
        return Err((3, 0));
    }
    out[..text.len()].copy_from_slice(text.as_bytes());
    Ok(text.len())
}

/// A line for each transaction by rising number, and one for each edge by first and then second
/// number.
fn picture(events: &[Event]) -> String {
    let numbers = transactions(events);
    let edges = edges(events, &numbers);
    let all = count(&numbers);
    let mut text = String::from("digraph {\n");
    for number in 0..all {
        text.push_str(&format!("{number};\n"));
    }
    for first in 0..all {
        for second in (0..all).filter(|second| edges.has(first, *second)) {
            text.push_str(&format!("{first} -> {second};\n"));
        }
    }
    text.push_str("}\n");
    text
}

/// What the program prints for this standard input.
pub fn report(standard_input: &[u8]) -> Vec<u8> {
    let input = &standard_input[..standard_input.len().min(MOST_READ)];
    let mut out = vec![0; ROOM];
    match dot(input, &mut out, &mut vec![0; WORK_AREA]) {
        Ok(length) => out[..length].to_vec(),
        Err(refusal) => refused_line(refusal).into_bytes(),
    }
}
