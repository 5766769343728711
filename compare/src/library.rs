//! The library's functions, with their answers said as the reference says them.

use reference::propose::Written;
use reference::why::{Reason, Why};
use reference::{Answer, Refusal};

/// The picture of the graph.
pub fn dot(input: &[u8], out: &mut [u8], work: &mut [u64]) -> Result<usize, Refusal> {
    quelohuite::dot(input, out, work).map(|bytes| bytes as usize).map_err(refusal)
}

/// The recording with proposed yields.
pub fn propose(input: &[u8], out: &mut [u8], work: &mut [u64]) -> Result<Written, Refusal> {
    let written = |done: quelohuite::Proposed| Written {
        bytes: done.bytes as usize,
        yields: done.yields as usize,
    };
    quelohuite::propose(input, out, work).map(written).map_err(refusal)
}

fn refusal(given: quelohuite::Refusal) -> Refusal {
    (given.number as u8, given.record as usize)
}

/// The proved checker.
pub fn judge(input: &[u8], out: &mut [u8], work: &mut [u64]) -> Answer {
    said(quelohuite::judge(input, out, work))
}

/// The same by the plain engine.
pub fn judge_plain(input: &[u8], out: &mut [u8], work: &mut [u64]) -> Answer {
    said(quelohuite::judge_plain(input, out, work))
}

fn said(answer: quelohuite::Answer) -> Answer {
    match answer {
        quelohuite::Answer::Cooperable { records, transactions } => {
            Answer::Cooperable { records, transactions }
        }
        quelohuite::Answer::Violation { record, length } => Answer::Violation { record, length },
        quelohuite::Answer::Refused { number, record } => Answer::Refused { number, record },
    }
}

/// The edge at a place of the reported cycle.
pub fn why(input: &[u8], out: &mut [u8], work: &mut [u64], place: usize) -> Why {
    match quelohuite::why(input, out, work, place) {
        quelohuite::Told::Because { first, second, reason } => {
            let (reason, number) = match reason {
                quelohuite::Reason::Thread(thread) => (Reason::Thread, thread),
                quelohuite::Reason::Variable(variable) => (Reason::Variable, variable),
                quelohuite::Reason::Lock(lock) => (Reason::Lock, lock),
                quelohuite::Reason::ForkJoin(thread) => (Reason::ForkJoin, thread),
            };
            Why::Because { first, second, reason, number }
        }
        quelohuite::Told::NoSuchEdge => Why::NoSuchEdge,
        quelohuite::Told::Refused { number, record } => Why::Refused { number, record },
    }
}
