//! Recordings made for `why`, and what all of its recordings show, by the reference.

use reference::record::encode_all;
use reference::words::events;

/// Forks and joins that name each other's threads, several reasons at once, an earlier first
/// record with a later second, and an earlier pair past the violation.
const CYCLES: [&str; 9] = [
    "0 fork 1\n1 fork 2\n2 join 1\n2 write 0 1\n0 read 0 1\n",
    "0 fork 9\n9 fork 3\n3 join 9\n3 acquire 0\n0 acquire 1\n0 join 3\n",
    "0 fork 9\n9 fork 3\n3 join 9\n3 acquire 0\n3 release 0\n0 acquire 0\n",
    "0 fork 1\n0 fork 2\n2 join 1\n2 write 0 1\n0 read 0 1\n",
    "0 fork 1\n0 fork 2\n1 yield\n2 join 1\n2 write 0 1\n0 read 0 1\n",
    "0 fork 1\n1 fork 2\n1 join 2\n1 write 3 1\n0 read 3 1\n",
    "0 fork 1\n0 yield\n0 write 0 1\n1 write 0 2\n1 yield\n1 read 0 2\n1 write 9 1\n0 read 9 1\n",
    "0 fork 1\n0 yield\n0 write 1 1\n0 write 2 1\n1 read 2 1\n1 write 3 1\n1 read 1 1\n0 read 3 1\n",
    "0 fork 1\n0 yield\n0 write 5 1\n0 read 0 0\n1 write 0 1\n0 write 0 1\n1 read 5 1\n",
];

pub fn recordings() -> Vec<Vec<u8>> {
    CYCLES.iter().map(|text| encode_all(&events(text))).collect()
}

/// The reasons as the program names them.
const NAMES: [&str; 4] = ["thread", "variable", "lock", "fork-join"];

/// Says how many violations there are, and how many edges of their cycles by each reason.
pub fn print(inputs: &[Vec<u8>]) {
    let texts: Vec<String> = inputs.iter().map(|input| reference::why::report(input)).collect();
    let violations: Vec<&String> = texts.iter().filter(|t| t.starts_with("violation")).collect();
    let edges: Vec<&str> = violations.iter().flat_map(|text| text.lines().skip(1)).collect();
    let by = |name: &str| edges.iter().filter(|edge| edge.split(' ').nth(3) == Some(name)).count();
    let reasons: Vec<String> = NAMES.iter().map(|name| format!("{name} {}", by(name))).collect();
    let longest = violations.iter().map(|text| text.lines().count() - 1).max().unwrap_or(0);
    println!(
        "of why: {} violations (cycles to {longest}), edges by {}",
        violations.len(),
        reasons.join(", ")
    );
}
