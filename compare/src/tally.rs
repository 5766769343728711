//! What a run has seen, so that it can say what it never saw.

use reference::Answer;

const KINDS: [&str; 10] = [
    "read", "write", "acquire", "release", "prewait", "postwait", "notify", "fork", "join", "yield",
];

#[derive(Default)]
pub struct Tally {
    cooperable: u64,
    violations: u64,
    most_records: u64,
    most_transactions: u64,
    longest_cycle: u64,
    refusals: [u64; 14],
    /// By number of refusal and by the kind of the record that was refused.
    places: [[u64; 11]; 14],
}

impl Tally {
    pub fn count(&mut self, input: &[u8], answer: &Answer) {
        match *answer {
            Answer::Cooperable { records, transactions } => {
                self.cooperable += 1;
                self.most_records = self.most_records.max(records);
                self.most_transactions = self.most_transactions.max(transactions);
            }
            Answer::Violation { length, .. } => {
                self.violations += 1;
                self.longest_cycle = self.longest_cycle.max(length);
            }
            Answer::Refused { number, record } => {
                self.refusals[number as usize] += 1;
                if let Some(kind) = input.get(8 * record as usize + 2) {
                    self.places[number as usize][usize::from(*kind).min(10)] += 1;
                }
            }
        }
    }

    /// The pairs of a number and a kind that document 01 allows and the run never saw.
    pub fn never_seen(&self) -> Vec<String> {
        let mut missing = Vec::new();
        for number in 1..=13 {
            if self.refusals[number] == 0 {
                missing.push(format!("refusal {number}"));
            }
            for kind in kinds_refused_by(number) {
                if self.places[number][kind] == 0 {
                    missing.push(format!("refusal {number} at {}", KINDS[kind - 1]));
                }
            }
        }
        if self.cooperable == 0 || self.violations == 0 {
            missing.push("cooperable, or violation".to_string());
        }
        missing
    }

    pub fn print(&self) {
        let Tally { cooperable, violations, .. } = self;
        println!(
            "cooperable {cooperable} (to {} records, {} transactions), violation {violations} (cycles to {})",
            self.most_records, self.most_transactions, self.longest_cycle
        );
        let numbers: Vec<String> =
            (1..=13).map(|number| format!("{number}: {}", self.refusals[number])).collect();
        println!("refused by {}", numbers.join(", "));
    }
}

/// The kinds of record that can be refused by this number.
fn kinds_refused_by(number: usize) -> Vec<usize> {
    match number {
        5 | 7 | 8 | 9 | 13 => (1..=10).collect(),
        10 => (3..=7).collect(),
        11 => vec![8, 9],
        12 => vec![1],
        _ => vec![],
    }
}
