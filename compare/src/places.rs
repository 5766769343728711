//! The library asked by place: every edge of the reported cycle, and places past its end.

use reference::record::{encode_all, RECORD_LENGTH};
use reference::why::{reasons, Reasons, Why};

use crate::case::{difference, Case, Left};
use crate::numbers::Numbers;
use crate::shapes::{shape, LONGEST_CYCLE, LONG_CYCLE};
use crate::{edges, library, recordings};

/// A fixed recording of more records than this is left to the other phases.
const MOST_RECORDS: usize = 256;

/// How many places were asked for, by what was answered.
#[derive(Default)]
pub struct Asked {
    pub edges: u64,
    pub past_the_end: u64,
    pub refused: u64,
    /// The length of the longest cycle.
    pub longest: usize,
}

impl Asked {
    pub fn all(&self) -> u64 {
        self.edges + self.past_the_end + self.refused
    }

    pub fn add(&mut self, more: &Asked) {
        self.edges += more.edges;
        self.past_the_end += more.past_the_end;
        self.refused += more.refused;
        self.longest = self.longest.max(more.longest);
    }

    fn count(&mut self, answer: &Why) {
        match answer {
            Why::Because { .. } => self.edges += 1,
            Why::NoSuchEdge => self.past_the_end += 1,
            Why::Refused { .. } => self.refused += 1,
        }
    }
}

/// What is asked about: the fixed recordings that are short, those made for `why`, cycles through
/// hundreds of transactions, and, so many times, a random violation and a recording of any sort.
pub fn cases(fixed: Vec<Vec<u8>>, count: u64, numbers: &mut Numbers) -> Vec<Case> {
    let short = |input: &Vec<u8>| input.len() <= RECORD_LENGTH * MOST_RECORDS;
    let mut inputs: Vec<Vec<u8>> = fixed.into_iter().filter(short).collect();
    inputs.extend(edges::recordings());
    for which in [LONG_CYCLE, LONGEST_CYCLE] {
        inputs.extend([512, 1024].map(|records| encode_all(&shape(which, records, numbers))));
    }
    let mut cases: Vec<Case> = inputs.into_iter().map(Case::plain).collect();
    for _ in 0..count {
        for input in [recordings::violation(numbers), recordings::any(numbers)] {
            cases.push(Case::with_lengths_of_all_sorts(input, numbers));
        }
    }
    cases
}

/// All places of a cycle of this length, and some past its end: among them those that would be 0 if
/// they were cut to 9, 16 or 32 bits.
fn places(length: usize) -> Vec<usize> {
    let mut places: Vec<usize> = (0..=length + 1).collect();
    let far = [511, 512, 65535, 65536, usize::MAX / 2 + 1, usize::MAX];
    places.extend(far.into_iter().filter(|place| *place > length + 1));
    places
}

/// Asks both sides for each place: the answer, the whole output and the whole work area.
pub fn compared(case: &Case) -> Result<Asked, String> {
    let lent = case.lent();
    let Some(reference) = lent.left_by(reasons) else {
        return Err("the reference stopped in a panic".to_string());
    };
    let length = match &reference.answer {
        Reasons::OfEdges(edges) => edges.len(),
        Reasons::Refused { .. } => 0,
    };
    let mut asked = Asked { longest: length, ..Asked::default() };
    for place in places(length) {
        let said: Left<Why> = reference.with(reference.answer.at(place as u64));
        asked.count(&said.answer);
        let library = lent.left_by(|input, out, work| library::why(input, out, work, place));
        if let Some(words) = difference(&library, &Some(said)) {
            return Err(format!("asked for place {place}\n{words}"));
        }
    }
    Ok(asked)
}
