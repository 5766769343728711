//! Proposed yields: the recording with a yield right before each record that would be a violation.

use crate::graph::Edges;
use crate::judge::{
    fault_of_input, fault_of_work, possible_history, Refusal, MOST_BYTES, MOST_TRANSACTIONS,
    WORK_AREA,
};
use crate::record::{encode_all, Event, Operation, RECORD_LENGTH};
use crate::report::{refused_line, MOST_READ};
use crate::transactions::{count, transactions};

const MOST_RECORDS: usize = MOST_BYTES / RECORD_LENGTH;

/// A finished recording, and the yields that were added to it.
#[derive(Clone, Debug, PartialEq, Eq)]
pub struct Proposal {
    pub events: Vec<Event>,
    pub added: Vec<Added>,
}

/// An added yield: its thread, and the record of the input that it stands right before.
#[derive(Clone, Copy, Debug, PartialEq, Eq)]
pub struct Added {
    pub thread: u8,
    pub before: usize,
}

/// Walks a possible history. Where a record would be a violation, a yield of its thread is put
/// right before it. Refused by 15 or 13 at the first record that makes the recording too long.
pub fn walk(events: &[Event]) -> Result<Proposal, Refusal> {
    let mut built: Vec<Event> = Vec::new();
    let mut added = Vec::new();
    // One more transaction than is allowed may be asked about.
    let mut edges = Edges::none(MOST_TRANSACTIONS + 1);
    for (before, event) in events.iter().enumerate() {
        let place = built.len();
        built.push(*event);
        if edges.would_close_a_cycle(&built, &transactions(&built), place) {
            let thread = event.thread;
            built.insert(place, Event { thread, operation: Operation::Yield });
            added.push(Added { thread, before });
        }
        if built.len() > MOST_RECORDS {
            return Err((15, before));
        }
        let numbers = transactions(&built);
        if count(&numbers) > MOST_TRANSACTIONS {
            return Err((13, before));
        }
        for new in place..built.len() {
            edges.extend(&built, &numbers, new);
        }
    }
    Ok(Proposal { events: built, added })
}

/// The first refusals, and then the walk.
fn proposal(input: &[u8], out: &[u8], work: &mut [u64]) -> Result<Proposal, Refusal> {
    let short = (out.len() < MOST_BYTES).then_some(3);
    if let Some(number) = fault_of_input(input).or(short).or(fault_of_work(work)) {
        return Err((number, 0));
    }
    let events = possible_history(input)?;
    work[..WORK_AREA].fill(0);
    walk(&events)
}

/// How many bytes were written, and how many yields added.
#[derive(Clone, Copy, Debug, PartialEq, Eq)]
pub struct Written {
    pub bytes: usize,
    pub yields: usize,
}

/// Writes the finished recording. A refusal leaves the output as it was; one in the walk has cleared
/// the work area, any other leaves that too.
pub fn propose(input: &[u8], out: &mut [u8], work: &mut [u64]) -> Result<Written, Refusal> {
    let Proposal { events, added } = proposal(input, out, work)?;
    let finished = encode_all(&events);
    out[..finished.len()].copy_from_slice(&finished);
    Ok(Written { bytes: finished.len(), yields: added.len() })
}

/// What the program does with a standard input.
pub struct Report {
    pub text: Vec<u8>,
    /// The finished recording, for the file that it may be asked to write.
    pub file: Option<Vec<u8>>,
}

/// The text is the number of yields and of records of the finished recording, and then for each
/// yield its thread and the record of the input that it stands before.
pub fn report(standard_input: &[u8]) -> Report {
    let input = &standard_input[..standard_input.len().min(MOST_READ)];
    match proposal(input, &[0; MOST_BYTES], &mut [0; WORK_AREA]) {
        Err(refusal) => Report { text: refused_line(refusal).into_bytes(), file: None },
        Ok(Proposal { events, added }) => {
            let mut text = format!("proposed {} {}\n", added.len(), events.len());
            for Added { thread, before } in added {
                text.push_str(&format!("{thread} {before}\n"));
            }
            Report { text: text.into_bytes(), file: Some(encode_all(&events)) }
        }
    }
}
