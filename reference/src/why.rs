//! Which two records make an edge of the reported cycle, and by which rule.

use crate::conflict::{
    forks_or_joins_the_thread_of, forks_what_is_joined_by, lock, same_lock, same_thread,
    same_variable_and_one_writes, variable,
};
use crate::judge::{judge, possible_history, verdict, Answer, Verdict, WORK_AREA};
use crate::record::{Event, Operation};
use crate::report::{first_line, MOST_READ};
use crate::transactions::transactions;

/// The rule by which two records conflict.
#[derive(Clone, Copy, Debug, PartialEq, Eq)]
pub enum Reason {
    Thread,
    Variable,
    Lock,
    ForkJoin,
}

impl Reason {
    pub fn name(self) -> &'static str {
        match self {
            Reason::Thread => "thread",
            Reason::Variable => "variable",
            Reason::Lock => "lock",
            Reason::ForkJoin => "fork-join",
        }
    }
}

#[derive(Clone, Copy, Debug, PartialEq, Eq)]
pub enum Why {
    Because { first: u64, second: u64, reason: Reason, number: u64 },
    NoSuchEdge,
    Refused { number: u64, record: u64 },
}

/// What is said of one recording, whichever place is asked for: a refusal, or what makes each edge
/// of the reported cycle in order. Without a violation there is none.
#[derive(Clone, Debug, PartialEq, Eq)]
pub enum Reasons {
    Refused { number: u64, record: u64 },
    OfEdges(Vec<Why>),
}

impl Reasons {
    /// What is said of the edge at this place.
    pub fn at(&self, place: u64) -> Why {
        match self {
            Reasons::Refused { number, record } => {
                Why::Refused { number: *number, record: *record }
            }
            Reasons::OfEdges(edges) => {
                let place = usize::try_from(place).unwrap_or(usize::MAX);
                edges.get(place).copied().unwrap_or(Why::NoSuchEdge)
            }
        }
    }
}

/// What makes each edge of the reported cycle. Output and work area end as after a plain judgement.
pub fn reasons(input: &[u8], out: &mut [u8], work: &mut [u64]) -> Reasons {
    match judge(input, out, work) {
        Answer::Refused { number, record } => Reasons::Refused { number, record },
        _ => Reasons::OfEdges(edges_of_the_cycle(input)),
    }
}

/// What makes the edge at this place of the reported cycle, the same otherwise.
pub fn why(input: &[u8], out: &mut [u8], work: &mut [u64], place: u64) -> Why {
    reasons(input, out, work).at(place)
}

/// The whole text that the program prints for this standard input.
pub fn report(standard_input: &[u8]) -> String {
    let input = &standard_input[..standard_input.len().min(MOST_READ)];
    let answer = judged(input);
    let mut text = first_line(&answer);
    if let Answer::Violation { .. } = answer {
        for (place, edge) in edges_of_the_cycle(input).iter().enumerate() {
            text.push_str(&line(place, edge));
        }
    }
    text
}

fn line(place: usize, edge: &Why) -> String {
    match edge {
        Why::Because { first, second, reason, number } => {
            format!("{place} {first} {second} {} {number}\n", reason.name())
        }
        _ => panic!("every edge of the cycle has its records"),
    }
}

fn judged(input: &[u8]) -> Answer {
    judge(input, &mut vec![0; input.len()], &mut vec![0; WORK_AREA])
}

/// For each edge of the reported cycle in order, the last one back to its start, what makes it.
/// Without a violation there is none.
fn edges_of_the_cycle(input: &[u8]) -> Vec<Why> {
    let events = possible_history(input).expect("it was not refused");
    let Verdict::Violation { record, cycle } = verdict(&events) else { return Vec::new() };
    let prefix = &events[..=record];
    let numbers = transactions(prefix);
    let next = |place: usize| cycle[(place + 1) % cycle.len()];
    (0..cycle.len()).map(|place| because(prefix, &numbers, cycle[place], next(place))).collect()
}

/// The earliest record of `from` that conflicts with a later one of `to`, and the earliest such.
fn because(prefix: &[Event], numbers: &[usize], from: usize, to: usize) -> Why {
    let of = |number: usize| (0..prefix.len()).filter(move |record| numbers[*record] == number);
    for first in of(from) {
        for second in of(to).filter(|second| first < *second) {
            if let Some((reason, number)) = reason(&prefix[first], &prefix[second]) {
                let (first, second, number) = (first as u64, second as u64, u64::from(number));
                return Why::Because { first, second, reason, number };
            }
        }
    }
    panic!("an edge has two records that make it");
}

/// The first rule that holds of two records, the earlier one given first, and its number.
pub fn reason(first: &Event, second: &Event) -> Option<(Reason, u8)> {
    if same_thread(first, second) {
        return Some((Reason::Thread, first.thread));
    }
    if same_variable_and_one_writes(first, second) {
        return variable(first).map(|variable| (Reason::Variable, variable));
    }
    if same_lock(first, second) {
        return lock(first).map(|lock| (Reason::Lock, lock));
    }
    thread_forked_or_joined(first, second).map(|thread| (Reason::ForkJoin, thread))
}

/// Where each forks or joins the other's thread, the earlier one's target.
fn thread_forked_or_joined(first: &Event, second: &Event) -> Option<u8> {
    if forks_or_joins_the_thread_of(first, second) {
        return target_thread(first);
    }
    if forks_or_joins_the_thread_of(second, first) {
        return target_thread(second);
    }
    if forks_what_is_joined_by(first, second) || forks_what_is_joined_by(second, first) {
        return target_thread(first);
    }
    None
}

fn target_thread(event: &Event) -> Option<u8> {
    match event.operation {
        Operation::Fork { thread } | Operation::Join { thread } => Some(thread),
        _ => None,
    }
}

#[cfg(test)]
mod tests {
    use super::*;
    use crate::conflict::conflict;
    use crate::record::encode_all;
    use crate::words::events;

    const P3: &str = "0 fork 1\n0 read 0 0\n1 write 0 1\n0 write 0 1\n";
    const P6: &str = "0 fork 1\n0 acquire 0\n0 release 0\n1 acquire 0\n1 release 0\n0 acquire 0\n";
    const P9: &str = "0 fork 1\n0 fork 2\n0 yield\n0 write 0 1\n1 read 0 1\n1 write 1 1\n2 read 1 1\n2 write 2 1\n0 read 2 1\n";

    fn bytes(text: &str) -> Vec<u8> {
        encode_all(&events(text))
    }

    /// The answer for a place, with room to spare; the buffers end as after a plain judgement.
    fn asked(input: &[u8], place: u64) -> Why {
        let (mut out, mut work) = (vec![0xEE; input.len() + 9], vec![7; WORK_AREA + 3]);
        let (mut out_judged, mut work_judged) = (out.clone(), work.clone());
        judge(input, &mut out_judged, &mut work_judged);
        let answer = why(input, &mut out, &mut work, place);
        assert!(out == out_judged && work == work_judged);
        answer
    }

    /// The text is as expected, and each of its lines is the answer for its place.
    fn prints(text: &str, expected: &str) {
        let input = bytes(text);
        assert_eq!(report(&input), expected);
        for (place, line_of_it) in expected.lines().skip(1).enumerate() {
            assert_eq!(line(place, &asked(&input, place as u64)), format!("{line_of_it}\n"));
        }
        let length = expected.lines().count() as u64 - 1;
        for past in [length, length + 1, u64::MAX] {
            assert_eq!(asked(&input, past), Why::NoSuchEdge);
        }
    }

    #[test]
    fn document_01s_violations() {
        prints(P3, "violation 3 2\n0 0 2 fork-join 1\n1 2 3 variable 0\n");
        prints(P6, "violation 5 2\n0 0 3 fork-join 1\n1 3 5 lock 0\n");
        prints(P9, "violation 8 3\n0 3 4 variable 0\n1 5 6 variable 1\n2 7 8 variable 2\n");
        let because = Why::Because { first: 0, second: 2, reason: Reason::ForkJoin, number: 1 };
        assert_eq!(asked(&bytes(P3), 0), because);
    }

    #[test]
    fn no_edge_without_a_violation() {
        prints("", "cooperable 0 0\n");
        prints("0 write 3 5\n", "cooperable 1 1\n");
        prints("0 fork 1\n0 read 0 0\n1 read 0 0\n0 read 0 0\n", "cooperable 4 2\n");
    }

    #[test]
    fn a_refusal_goes_first() {
        let twice = bytes("0 acquire 0\n0 acquire 0\n");
        let late = bytes(&format!("{P3}2 yield\n"));
        for place in [0, 1, 2, u64::MAX] {
            assert_eq!(asked(&[0; 7], place), Why::Refused { number: 1, record: 0 });
            assert_eq!(asked(&[0; 8200], place), Why::Refused { number: 2, record: 0 });
            assert_eq!(asked(&twice, place), Why::Refused { number: 10, record: 1 });
            assert_eq!(asked(&late, place), Why::Refused { number: 8, record: 4 });
        }
        assert_eq!(report(&late), "refused 8 4\n");
        assert_eq!(report(&[0; 8205]), "refused 2 0\n");
    }

    #[test]
    fn short_buffers_are_refused_as_the_checker_refuses_them() {
        let input = bytes(P3);
        for place in [0, 1, 2, u64::MAX] {
            let lent =
                |out: usize, work: usize| why(&input, &mut vec![0; out], &mut vec![0; work], place);
            assert_eq!(lent(31, 4095), Why::Refused { number: 3, record: 0 });
            assert_eq!(lent(32, 4095), Why::Refused { number: 4, record: 0 });
        }
    }

    #[test]
    fn forks_and_joins() {
        // Records 1 and 2 name each other's threads: the earlier one's target is 2.
        prints(
            "0 fork 1\n1 fork 2\n2 join 1\n2 write 0 1\n0 read 0 1\n",
            "violation 4 3\n0 0 1 fork-join 1\n1 1 2 fork-join 2\n2 3 4 variable 0\n",
        );
        // A fork and a join of thread 1 by others; the fork of 2 comes later.
        prints(
            "0 fork 1\n0 fork 2\n2 join 1\n2 write 0 1\n0 read 0 1\n",
            "violation 4 2\n0 0 2 fork-join 1\n1 3 4 variable 0\n",
        );
        // Only the later record of 2 and 3 names a thread.
        prints(
            "0 fork 1\n0 fork 2\n1 yield\n2 join 1\n2 write 0 1\n0 read 0 1\n",
            "violation 5 3\n0 0 2 fork-join 1\n1 2 3 fork-join 1\n2 4 5 variable 0\n",
        );
    }

    #[test]
    fn the_thread_goes_first_where_several_hold() {
        // Variable 0 too.
        prints(
            "0 fork 1\n0 yield\n0 write 0 1\n1 write 0 2\n1 yield\n1 read 0 2\n1 write 9 1\n0 read 9 1\n",
            "violation 7 3\n0 2 3 variable 0\n1 3 5 thread 1\n2 6 7 variable 9\n",
        );
        // Lock 4 too.
        prints(
            "0 fork 1\n0 yield\n0 write 0 1\n1 acquire 4\n1 read 0 1\n1 yield\n1 release 4\n1 write 9 1\n0 read 9 1\n",
            "violation 8 3\n0 2 4 variable 0\n1 3 6 thread 1\n2 7 8 variable 9\n",
        );
        // A fork and a join of thread 2 too.
        prints(
            "0 fork 1\n1 fork 2\n1 join 2\n1 write 3 1\n0 read 3 1\n",
            "violation 4 3\n0 0 1 fork-join 1\n1 1 2 thread 1\n2 3 4 variable 3\n",
        );
    }

    #[test]
    fn the_earliest_first_and_for_it_the_earliest_second() {
        // Of transaction 1 to 2: records 2 and 6 go before the earlier second of 3 and 4.
        prints(
            "0 fork 1\n0 yield\n0 write 1 1\n0 write 2 1\n1 read 2 1\n1 write 3 1\n1 read 1 1\n1 read 1 1\n0 read 3 1\n",
            "violation 8 2\n0 2 6 variable 1\n1 5 8 variable 3\n",
        );
    }

    #[test]
    fn records_past_the_violation_do_not_count() {
        // Records 2 and 6 would be earlier, but the judged prefix ends at 5.
        prints(
            "0 fork 1\n0 yield\n0 write 5 1\n0 read 0 0\n1 write 0 1\n0 write 0 1\n1 read 5 1\n",
            "violation 5 2\n0 3 4 variable 0\n1 4 5 variable 0\n",
        );
    }

    #[test]
    fn there_is_a_reason_exactly_for_a_conflict() {
        let all = events(
            "0 read 1 0\n1 write 1 0\n2 write 2 0\n0 acquire 1\n1 notify 1\n2 release 2\n0 fork 1\n\
             0 join 2\n1 fork 2\n2 join 1\n2 join 0\n3 join 1\n3 yield\n1 yield\n",
        );
        for first in &all {
            for second in &all {
                assert_eq!(reason(first, second).is_some(), conflict(first, second));
            }
        }
    }
}
