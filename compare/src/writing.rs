//! Functions of the library that write something other than a judgement: what both sides answer and
//! leave, with outputs around the length that is needed.

use std::fmt::Debug;

use reference::{Refusal, WORK_AREA};

use crate::case::{difference, Case};
use crate::numbers::Numbers;

/// It says how much was written.
pub type Writes<A> = fn(&[u8], &mut [u8], &mut [u64]) -> Result<A, Refusal>;

/// The recording with exactly the output that is needed, with one byte less, and with any length
/// of output and work area.
pub fn cases(input: &[u8], needed: usize, numbers: &mut Numbers) -> Vec<Case> {
    let lengths = [
        (needed, WORK_AREA),
        (needed.saturating_sub(1), WORK_AREA + numbers.below(3)),
        (
            numbers.below(2 * needed + 2),
            numbers.one_of(&[0, WORK_AREA - 1, WORK_AREA, WORK_AREA, WORK_AREA + 1, 5000]),
        ),
    ];
    lengths
        .map(|(out_length, work_length)| {
            let before = numbers.any();
            Case { input: input.to_vec(), out_length, work_length, before }
        })
        .into()
}

/// What the two sides differ in, in words.
pub fn compared<A: Debug + PartialEq>(
    case: &Case,
    library: Writes<A>,
    reference: Writes<A>,
) -> Option<String> {
    let lent = case.lent();
    difference(&lent.left_by(library), &lent.left_by(reference))
}
