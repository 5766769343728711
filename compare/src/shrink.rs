//! Makes a failing case small while it still fails.

use std::time::{Duration, Instant};

use reference::record::RECORD_LENGTH;

use crate::case::Case;

/// A case of a thousand records takes long to judge so many times: what is found by then will do.
const LONGEST: Duration = Duration::from_secs(15);

struct Shrinking<'a> {
    best: Case,
    fails: &'a dyn Fn(&Case) -> bool,
    until: Instant,
}

/// The smallest case found that still fails.
pub fn shrink(case: &Case, fails: &dyn Fn(&Case) -> bool) -> Case {
    let until = Instant::now() + LONGEST;
    let mut shrinking = Shrinking { best: case.clone(), fails, until };
    loop {
        let before = shrinking.best.clone();
        shrinking.take_plain_lengths();
        shrinking.leave_out_records();
        shrinking.take_small_fields();
        if shrinking.best == before {
            return before;
        }
    }
}

impl Shrinking<'_> {
    /// Keeps the candidate if it fails too.
    fn keep(&mut self, candidate: Case) -> bool {
        let better =
            candidate != self.best && Instant::now() < self.until && (self.fails)(&candidate);
        if better {
            self.best = candidate;
        }
        better
    }

    fn take_plain_lengths(&mut self) {
        let plain = Case::plain(self.best.input.clone());
        self.keep(Case { out_length: plain.out_length, ..self.best.clone() });
        self.keep(Case { work_length: plain.work_length, ..self.best.clone() });
    }

    /// Takes out runs of records, from half of them down to one.
    fn leave_out_records(&mut self) {
        let mut run = (self.best.input.len() / RECORD_LENGTH / 2).max(1);
        loop {
            let mut at = 0;
            while at < self.best.input.len() {
                let until = (at + RECORD_LENGTH * run).min(self.best.input.len());
                if !self.keep(without(&self.best, at, until)) {
                    at += RECORD_LENGTH * run;
                }
            }
            if run == 1 {
                return;
            }
            run /= 2;
        }
    }

    /// Puts each byte past the kind to 0, or else to half, or else to one less.
    fn take_small_fields(&mut self) {
        for at in (0..self.best.input.len()).filter(|at| at % RECORD_LENGTH > 2) {
            let now = self.best.input[at];
            for smaller in [0, now / 2, now.saturating_sub(1)] {
                let mut candidate = self.best.clone();
                candidate.input[at] = smaller;
                if self.keep(candidate) {
                    break;
                }
            }
        }
    }
}

/// The output is shortened by as much, so that what was exact stays exact.
fn without(case: &Case, from: usize, until: usize) -> Case {
    let mut input = case.input.clone();
    input.drain(from..until);
    let out_length = case.out_length.saturating_sub(until - from);
    Case { input, out_length, ..case.clone() }
}

#[cfg(test)]
mod tests {
    use super::*;
    use reference::record::encode_all;
    use reference::words::events;

    #[test]
    fn only_what_makes_it_fail_is_left() {
        let text = "0 fork 3\n0 yield\n3 write 9 7\n0 write 9 8\n0 yield\n0 read 9 8\n0 yield\n";
        let fails = |case: &Case| {
            let writes = case.input.chunks(8).filter(|record| record.get(2) == Some(&2)).count();
            writes == 2
        };
        let mut case = Case::plain(encode_all(&events(text)));
        case.out_length += 5;
        let small = shrink(&case, &fails);
        assert_eq!(small, Case::plain(encode_all(&events("0 write 0 0\n0 write 0 0\n"))));
    }
}
