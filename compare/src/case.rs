//! One comparison: a recording, the lengths that are lent with it, and what both sides make of it.

use std::fmt::Debug;
use std::panic::{catch_unwind, AssertUnwindSafe};

use reference::{Answer, WORK_AREA};

use crate::engines::ENGINES;
use crate::numbers::Numbers;

#[derive(Clone, Debug, PartialEq, Eq)]
pub struct Case {
    pub input: Vec<u8>,
    pub out_length: usize,
    pub work_length: usize,
    /// Fixes what output and work area hold before.
    pub before: u64,
}

/// Bytes kept on both sides of the lent output, and numbers on both sides of the lent work area:
/// nobody may write there.
const FENCE: usize = 16;

impl Case {
    /// The lengths that suit the recording exactly.
    pub fn plain(input: Vec<u8>) -> Case {
        let out_length = input.len();
        Case { input, out_length, work_length: WORK_AREA, before: 1 }
    }

    /// Mostly lengths that are judged; now and then one that is refused.
    pub fn with_lengths_of_all_sorts(input: Vec<u8>, numbers: &mut Numbers) -> Case {
        let length = input.len();
        let out_length = match numbers.below(40) {
            0 => 0,
            1 => length.saturating_sub(1),
            2 => numbers.below(length + 1),
            3..=12 => length + 1 + numbers.below(64),
            13 => length + 8192,
            _ => length,
        };
        let work_length = match numbers.below(40) {
            0 => 0,
            1 => WORK_AREA - 1,
            2..=5 => WORK_AREA + 1,
            6..=8 => 5000,
            _ => WORK_AREA,
        };
        Case { input, out_length, work_length, before: numbers.any() }
    }

    /// What is lent to each side.
    pub fn lent(&self) -> Lent<'_> {
        let mut numbers = Numbers::from_seed(self.before);
        let out = (0..self.out_length + 2 * FENCE).map(|_| numbers.byte()).collect();
        let work = (0..self.work_length + 2 * FENCE).map(|_| numbers.any()).collect();
        Lent { input: &self.input, out, work }
    }

    /// The answer of all engines and of the reference, or what one differs in, in words.
    pub fn compared(&self) -> Result<Answer, String> {
        let lent = self.lent();
        let reference = lent.left_by(reference::judge);
        for (name, judge) in ENGINES {
            if let Some(said) = difference(&lent.left_by(judge), &reference) {
                return Err(format!("{name}\n{said}"));
            }
        }
        Ok(reference.expect("both sides have answered").answer)
    }
}

/// The recording, and the contents of output and work area with their fences.
pub struct Lent<'a> {
    input: &'a [u8],
    out: Vec<u8>,
    work: Vec<u64>,
}

impl Lent<'_> {
    /// What one side leaves; nothing if it stops in a panic.
    pub fn left_by<A>(
        &self,
        asked: impl FnOnce(&[u8], &mut [u8], &mut [u64]) -> A,
    ) -> Option<Left<A>> {
        let (mut out, mut work) = (self.out.clone(), self.work.clone());
        let lent_out = FENCE..out.len() - FENCE;
        let lent_work = FENCE..work.len() - FENCE;
        let call = || asked(self.input, &mut out[lent_out], &mut work[lent_work]);
        let answer = catch_unwind(AssertUnwindSafe(call)).ok()?;
        Some(Left { answer, out, work })
    }
}

/// What one side leaves.
pub struct Left<A> {
    pub answer: A,
    out: Vec<u8>,
    work: Vec<u64>,
}

impl<A> Left<A> {
    /// The same contents, with this answer.
    pub fn with<B>(&self, answer: B) -> Left<B> {
        Left { answer, out: self.out.clone(), work: self.work.clone() }
    }

    /// The output that was lent.
    pub fn lent_out(&self) -> &[u8] {
        &self.out[FENCE..self.out.len() - FENCE]
    }
}

/// What the two sides differ in, in words.
pub fn difference<A: Debug + PartialEq>(
    ours: &Option<Left<A>>,
    reference: &Option<Left<A>>,
) -> Option<String> {
    let (Some(ours), Some(reference)) = (ours, reference) else {
        return Some("one side stopped in a panic".to_string());
    };
    if ours.answer != reference.answer {
        let (ours, theirs) = (&ours.answer, &reference.answer);
        return Some(format!("ours:      {ours:?}\nreference: {theirs:?}"));
    }
    let same = format!("both answer {:?}", ours.answer);
    if ours.out != reference.out {
        let (ours, theirs) = (ours.lent_out(), reference.lent_out());
        return Some(format!(
            "{same}\nour output:          {ours:02X?}\noutput of reference: {theirs:02X?}"
        ));
    }
    if ours.work == reference.work {
        return None;
    }
    let place = (0..ours.work.len()).find(|at| ours.work[*at] != reference.work[*at])?;
    let place = place as i64 - FENCE as i64;
    Some(format!("{same}\nthe work areas differ, first at {place}"))
}
