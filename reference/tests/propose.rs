//! Proposed yields, with finished recordings and refusals written out by hand, and each finished
//! recording held to what document 02 says of it.

use reference::propose::{propose, report, walk, Added, Written};
use reference::record::{decode, encode_all, Event, Operation};
use reference::words::events;
use reference::{judge, Answer, Refusal};

const BEFORE: u8 = 0xEE;
const WORK_BEFORE: u64 = 0x5555_5555_5555_5555;

fn bytes(text: &str) -> Vec<u8> {
    encode_all(&events(text))
}

fn answer(events: &[Event]) -> Answer {
    let input = encode_all(events);
    judge(&input, &mut vec![0; input.len()], &mut [0; 4096])
}

/// The finished recording with such buffers. What each end leaves is looked at here.
fn finished(input: &[u8], room: usize, work_length: usize) -> Result<Vec<u8>, Refusal> {
    let mut out = vec![BEFORE; room];
    let mut work = vec![WORK_BEFORE; work_length];
    let result = propose(input, &mut out, &mut work);
    let written = result.map_or(0, |written| written.bytes);
    assert!(out[written..].iter().all(|byte| *byte == BEFORE));
    // 13 of the input leaves the work area, 13 of the walk clears it.
    let judged = judge(input, &mut vec![0; input.len()], &mut [0; 4096]);
    let of_the_walk = !matches!(judged, Answer::Refused { .. }) && room >= 8192;
    let cleared = work_length >= 4096 && of_the_walk;
    let (first, rest) = work.split_at(work_length.min(4096));
    assert!(first.iter().all(|number| *number == if cleared { 0 } else { WORK_BEFORE }));
    assert!(rest.iter().all(|number| *number == WORK_BEFORE));
    let read = |record: &[u8]| decode(record).expect("a record without a fault");
    if let Ok(Written { bytes, yields }) = result {
        assert_eq!(bytes, input.len() + 8 * yields);
        let proposal = walk(&input.chunks(8).map(read).collect::<Vec<Event>>());
        assert_eq!(proposal.map(|proposal| proposal.added.len()), Ok(yields));
    }
    result.map(|written| out[..written.bytes].to_vec())
}

/// The finished recording is cooperable; it is the input once the added yields are taken out; and
/// without any single one of them it is a violation at the record that the yield stood before.
fn keeps_its_word(input: &[Event]) -> usize {
    let proposal = walk(input).expect("it is small");
    assert!(matches!(answer(&proposal.events), Answer::Cooperable { .. }));
    let place_of = |nth: usize, added: &Added| added.before + nth;
    let mut left = proposal.events.clone();
    for (nth, added) in proposal.added.iter().enumerate().rev() {
        let place = place_of(nth, added);
        let mark = Event { thread: added.thread, operation: Operation::Yield };
        assert_eq!(left.remove(place), mark);
        let mut without = proposal.events.clone();
        assert_eq!(without.remove(place), mark);
        let Answer::Violation { record, .. } = answer(&without) else {
            panic!("without the yield at {place} there is no violation");
        };
        assert_eq!(record, place as u64);
    }
    assert_eq!(left, input);
    proposal.added.len()
}

fn proposes(input: &str, output: &str, text: &str) {
    let input = bytes(input);
    let output = bytes(output);
    assert_eq!(finished(&input, 8192, 4096), Ok(output.clone()));
    assert_eq!(finished(&input, 9000, 4100), Ok(output.clone()));
    let report = report(&input);
    assert_eq!(String::from_utf8(report.text).unwrap(), text);
    assert_eq!(report.file, Some(output));
    let events: Vec<Event> = input.chunks(8).map(|record| decode(record).unwrap()).collect();
    keeps_its_word(&events);
}

const P3: &str = "0 fork 1\n0 read 0 0\n1 write 0 1\n0 write 0 1\n";

#[test]
fn document_01s_examples() {
    proposes("", "", "proposed 0 0\n");
    proposes("0 write 3 5\n", "0 write 3 5\n", "proposed 0 1\n");
    // P3 becomes P4.
    let p4 = "0 fork 1\n0 read 0 0\n1 write 0 1\n0 yield\n0 write 0 1\n";
    proposes(P3, p4, "proposed 1 5\n0 3\n");
    proposes(p4, p4, "proposed 0 5\n");
    // P6: two well-locked sections.
    proposes(
        "0 fork 1\n0 acquire 0\n0 release 0\n1 acquire 0\n1 release 0\n0 acquire 0\n",
        "0 fork 1\n0 acquire 0\n0 release 0\n1 acquire 0\n1 release 0\n0 yield\n0 acquire 0\n",
        "proposed 1 7\n0 5\n",
    );
    // P9: the cycle has three transactions.
    proposes(
        "0 fork 1\n0 fork 2\n0 yield\n0 write 0 1\n1 read 0 1\n1 write 1 1\n2 read 1 1\n2 write 2 1\n0 read 2 1\n",
        "0 fork 1\n0 fork 2\n0 yield\n0 write 0 1\n1 read 0 1\n1 write 1 1\n2 read 1 1\n2 write 2 1\n0 yield\n0 read 2 1\n",
        "proposed 1 10\n0 8\n",
    );
}

#[test]
fn an_added_yield_counts_for_what_comes_after() {
    // Record 4 is fine in the transaction that the yield before 3 began; record 6 is not.
    proposes(
        "0 fork 1\n0 read 0 0\n1 write 0 1\n0 write 0 1\n0 write 0 2\n1 read 0 2\n0 write 0 3\n",
        "0 fork 1\n0 read 0 0\n1 write 0 1\n0 yield\n0 write 0 1\n0 write 0 2\n1 yield\n1 read 0 2\n0 yield\n0 write 0 3\n",
        "proposed 3 10\n0 3\n1 5\n0 6\n",
    );
    // A mark that is there already is enough.
    proposes(
        "0 fork 1\n0 read 0 0\n1 write 0 1\n1 yield\n0 write 0 1\n1 read 0 1\n",
        "0 fork 1\n0 read 0 0\n1 write 0 1\n1 yield\n0 yield\n0 write 0 1\n1 read 0 1\n",
        "proposed 1 7\n0 4\n",
    );
}

#[test]
fn refusals_before_the_walk_in_their_order() {
    let impossible = bytes("0 acquire 0\n0 acquire 0\n");
    assert_eq!(finished(&[0; 7], 0, 0), Err((1, 0)));
    assert_eq!(finished(&[0; 8200], 0, 0), Err((2, 0)));
    assert_eq!(finished(&impossible, 8191, 0), Err((3, 0)));
    assert_eq!(finished(&[], 8191, 4096), Err((3, 0)));
    assert_eq!(finished(&impossible, 8192, 4095), Err((4, 0)));
    assert_eq!(finished(&[0; 8], 8192, 4096), Err((5, 0)));
    assert_eq!(finished(&[0xA7, 0x7A, 11, 0, 0, 0, 0, 0], 8192, 4096), Err((6, 0)));
    assert_eq!(finished(&[0xA7, 0x7A, 3, 0, 32, 0, 0, 0], 8192, 4096), Err((7, 0)));
    assert_eq!(finished(&impossible, 8192, 4096), Err((10, 1)));
    // The input's own 13, though a yield would be needed before.
    let over = bytes(&format!("{P3}{}", "0 yield\n".repeat(600)));
    assert_eq!(finished(&over, 8192, 4096), Err((13, 515)));
}

/// Two threads write one variable in turn: from the third write on each needs a yield.
fn in_turn(writes: usize) -> String {
    (0..writes).map(|turn| format!("{} write 0 0\n", turn % 2)).collect()
}

#[test]
fn number_15_in_the_walk() {
    // Record 0, then two writes, and then two records for each write.
    let input = |fill: usize, writes: usize| {
        format!("{}0 fork 1\n{}", "0 acquire 0\n0 release 0\n".repeat(fill), in_turn(writes))
    };
    // 200 + 1 + 2 + 2 * 410 is 1,023 records; one write more would make 1,025.
    let fits = bytes(&input(100, 412));
    assert_eq!(finished(&fits, 8192, 4096).map(|bytes| bytes.len()), Ok(8 * 1023));
    assert_eq!(finished(&bytes(&input(100, 413)), 8192, 4096), Err((15, 613)));
    assert_eq!(finished(&bytes(&input(100, 420)), 8192, 4096), Err((15, 613)));
    // One record that needs none goes in, and then the next doesn't, whether it needs one or not.
    let full = format!("{}0 acquire 0\n", input(100, 412));
    assert_eq!(finished(&bytes(&full), 8192, 4096).map(|bytes| bytes.len()), Ok(8192));
    assert_eq!(finished(&bytes(&format!("{full}0 release 0\n")), 8192, 4096), Err((15, 614)));
    assert_eq!(finished(&bytes(&format!("{full}0 write 0 0\n")), 8192, 4096), Err((15, 614)));
}

#[test]
fn number_13_in_the_walk() {
    // 300 transactions of one yield each, the fork's, one of thread 1, and then one for each yield.
    let input = |writes: usize| format!("{}0 fork 1\n{}", "0 yield\n".repeat(300), in_turn(writes));
    // Writes 0 and 1 are of transactions 300 and 301; write n begins number 300 + n.
    let fits = finished(&bytes(&input(212)), 8192, 4096).expect("512 transactions");
    assert_eq!(fits.len(), 8 * (300 + 1 + 212 + 210));
    assert_eq!(finished(&bytes(&input(213)), 8192, 4096), Err((13, 513)));
    // A yield of the input that begins one too many because of those added.
    let marked = format!("{}1 yield\n1 yield\n0 write 0 1\n", input(212));
    assert_eq!(finished(&bytes(&marked), 8192, 4096), Err((13, 514)));
}

#[test]
fn number_15_goes_before_13() {
    let full = |writes: usize| format!("0 acquire 0\n0 fork 1\n{}", in_turn(writes));
    let built = walk(&events(&full(511))).expect("511 transactions");
    assert_eq!(built.events.len(), 2 + 511 + 509);
    let built = walk(&events(&full(512))).expect("512 transactions");
    assert_eq!(built.events.len(), 1024);
    assert_eq!(finished(&bytes(&full(513)), 8192, 4096), Err((15, 514)));
    let one_less = full(512).replace("0 acquire 0\n", "");
    let built = walk(&events(&one_less)).expect("512 transactions");
    assert_eq!(built.events.len(), 1023);
    assert_eq!(finished(&bytes(&format!("{one_less}0 write 0 0\n")), 8192, 4096), Err((15, 513)));
    assert_eq!(
        finished(&bytes(&format!("{one_less}1 yield\n1 yield\n")), 8192, 4096),
        Err((15, 514))
    );
    assert_eq!(
        finished(&bytes(&format!("{one_less}0 fork 2\n2 yield\n")), 8192, 4096),
        Err((15, 514))
    );
    assert_eq!(finished(&bytes(&format!("{one_less}0 join 1\n")), 8192, 4096), Err((13, 513)));
}

#[test]
fn what_the_program_prints() {
    assert_eq!(report(&[0; 7]).text, b"refused 1 0\n");
    assert_eq!(report(&[0; 8205]).text, b"refused 2 0\n");
    let over = report(&bytes(&format!("0 fork 1\n{}", in_turn(1000))));
    assert!(over.text.starts_with(b"refused ") && over.file.is_none());
}

/// A small generator of numbers (a multiplier and a shift), enough to pick operations by.
struct Numbers(u64);

impl Numbers {
    fn below(&mut self, limit: u64) -> u64 {
        self.0 = self.0.wrapping_mul(6364136223846793005).wrapping_add(1442695040888963407);
        (self.0 >> 33) % limit
    }
}

/// Random records of three threads, those that can't be left out.
fn history(numbers: &mut Numbers, length: usize) -> Vec<Event> {
    let mut machine = reference::machine::Machine::fresh();
    let mut all = Vec::new();
    let mut add = |event: Event| {
        if machine.fault(&event).is_none() {
            machine.step(&event);
            all.push(event);
        }
    };
    for thread in [1, 2] {
        add(Event { thread: 0, operation: Operation::Fork { thread } });
    }
    for _ in 0..3 * length {
        let thread = numbers.below(3) as u8;
        let lock = numbers.below(2) as u8;
        let variable = numbers.below(2) as u8;
        let operation = match numbers.below(20) {
            0..=3 => Operation::Read { variable, value: 0 },
            4..=7 => Operation::Write { variable, value: 0 },
            8..=10 => Operation::Acquire { lock },
            11..=13 => Operation::Release { lock },
            14 => Operation::Prewait { lock },
            15..=16 => Operation::Postwait { lock },
            17 => Operation::Notify { lock },
            18 if numbers.below(8) == 0 => Operation::Join { thread: lock + 1 },
            _ => Operation::Yield,
        };
        add(Event { thread, operation });
    }
    all.truncate(length);
    all
}

/// The walk again, by judging what is built with the next record from nothing.
fn walk_by_judging(events: &[Event]) -> Vec<Event> {
    let mut built: Vec<Event> = Vec::new();
    for event in events {
        built.push(*event);
        if matches!(answer(&built), Answer::Violation { .. }) {
            let mark = Event { thread: event.thread, operation: Operation::Yield };
            built.insert(built.len() - 1, mark);
        }
    }
    built
}

#[test]
fn random_histories() {
    let mut numbers = Numbers(1);
    let mut yields = 0;
    for round in 0..600 {
        let events = history(&mut numbers, 4 + round % 40);
        assert_eq!(walk(&events).unwrap().events, walk_by_judging(&events));
        yields += keeps_its_word(&events);
    }
    assert!(yields > 600, "{yields}");
}
