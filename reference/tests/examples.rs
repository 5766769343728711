//! Document 01's examples, with answers, outputs and printed texts written out by hand.

use reference::record::encode_all;
use reference::words::events;
use reference::{judge, report, Answer};

const BEFORE: u8 = 0xEE;
const WORK_BEFORE: u64 = 0x5555_5555_5555_5555;

fn bytes(text: &str) -> Vec<u8> {
    encode_all(&events(text))
}

/// Judges with room to spare, and sees that whatever is not named is as it was.
fn judged(input: &[u8]) -> (Answer, Vec<u8>) {
    let mut out = vec![BEFORE; input.len() + 24];
    let mut work = vec![WORK_BEFORE; 4100];
    let answer = judge(input, &mut out, &mut work);
    let written = match answer {
        Answer::Cooperable { records, .. } => 8 * records as usize,
        Answer::Violation { length, .. } => 2 * length as usize,
        Answer::Refused { .. } => 0,
    };
    let work_after = if let Answer::Refused { .. } = answer { WORK_BEFORE } else { 0 };
    assert!(out[written..].iter().all(|byte| *byte == BEFORE));
    assert!(work[..4096].iter().all(|number| *number == work_after));
    assert!(work[4096..].iter().all(|number| *number == WORK_BEFORE));
    (answer, out[..written].to_vec())
}

fn cooperable(text: &str, transactions: u64, order: &[usize]) {
    let input = bytes(text);
    let expected: Vec<u8> = order.iter().flat_map(|r| input[8 * r..8 * r + 8].to_vec()).collect();
    let records = order.len() as u64;
    assert_eq!(judged(&input), (Answer::Cooperable { records, transactions }, expected));
}

fn violation(text: &str, record: u64, cycle: &[u8]) {
    let expected: Vec<u8> = cycle.iter().flat_map(|number| [*number, 0]).collect();
    let length = cycle.len() as u64;
    assert_eq!(judged(&bytes(text)), (Answer::Violation { record, length }, expected));
}

fn refused(input: &[u8], number: u64, record: u64) {
    assert_eq!(judged(input), (Answer::Refused { number, record }, vec![]));
    assert_eq!(report(input), format!("refused {number} {record}\n"));
}

const P3: &str = "0 fork 1\n0 read 0 0\n1 write 0 1\n0 write 0 1\n";
const P4: &str = "0 fork 1\n0 read 0 0\n1 write 0 1\n0 yield\n0 write 0 1\n";
const P7: &str = "0 fork 1\n0 acquire 0\n0 prewait 0\n1 acquire 0\n1 notify 0\n1 release 0\n0 postwait 0\n0 release 0\n";
const P9: &str = "0 fork 1\n0 fork 2\n0 yield\n0 write 0 1\n1 read 0 1\n1 write 1 1\n2 read 1 1\n2 write 2 1\n0 read 2 1\n";

#[test]
fn p1_to_p5() {
    cooperable("", 0, &[]);
    assert_eq!(report(b""), "cooperable 0 0\n");

    let p2 = [0xA7, 0x7A, 2, 0, 3, 0, 5, 0];
    assert_eq!(bytes("0 write 3 5\n"), p2);
    let answer = Answer::Cooperable { records: 1, transactions: 1 };
    assert_eq!(judged(&p2), (answer, p2.to_vec()));

    violation(P3, 3, &[0, 1]);
    assert_eq!(report(&bytes(P3)), "violation 3 2\n0 0 0\n1 1 2\n");

    cooperable(P4, 3, &[0, 1, 3, 2, 4]);
    assert_eq!(report(&bytes(P4)), "cooperable 5 3\n0 0 0\n1 1 2\n2 0 4\n");

    cooperable("0 fork 1\n0 read 0 0\n1 read 0 0\n0 read 0 0\n", 2, &[0, 1, 3, 2]);
}

#[test]
fn p6_to_p9() {
    violation(
        "0 fork 1\n0 acquire 0\n0 release 0\n1 acquire 0\n1 release 0\n0 acquire 0\n",
        5,
        &[0, 1],
    );
    cooperable(P7, 3, &[0, 1, 2, 3, 4, 5, 6, 7]);
    assert_eq!(report(&bytes(P7)), "cooperable 8 3\n0 0 0\n1 1 3\n2 0 6\n");
    cooperable("0 fork 1\n1 write 0 1\n0 join 1\n0 read 0 1\n", 3, &[0, 1, 2, 3]);
    violation(P9, 8, &[1, 2, 3]);
    assert_eq!(report(&bytes(P9)), "violation 8 3\n1 0 3\n2 1 4\n3 2 6\n");
}

#[test]
fn p10_and_p11() {
    cooperable("0 read 0 7\n", 1, &[0]);
    refused(&bytes("0 acquire 0\n0 acquire 0\n"), 10, 1);
}

#[test]
fn lengths() {
    refused(&[0; 7], 1, 0);
    refused(&[0; 8193], 1, 0);
    refused(&[0; 8199], 1, 0);
    refused(&[0; 8200], 2, 0);
    let yields = bytes("0 yield\n");
    refused(&yields.repeat(1024), 13, 512);
    let answer = Answer::Cooperable { records: 512, transactions: 512 };
    assert_eq!(judged(&yields.repeat(512)), (answer, yields.repeat(512)));
    refused(&[0xA7, 0x7A, 10, 16, 0, 0, 0, 0], 7, 0);
}

#[test]
fn the_program_judges_the_first_8200_bytes() {
    let yields = bytes("0 yield\n");
    assert_eq!(report(&yields.repeat(1025)), "refused 2 0\n");
    assert_eq!(report(&yields.repeat(4000)), "refused 2 0\n");
    assert_eq!(report(&vec![0; 8205]), "refused 2 0\n");
    assert_eq!(report(&vec![0; 8199]), "refused 1 0\n");
}

#[test]
fn short_buffers() {
    let input = bytes(P3);
    let judged_with = |input: &[u8], out: usize, work: usize| {
        let mut out = vec![BEFORE; out];
        let mut work = vec![WORK_BEFORE; work];
        let answer = judge(input, &mut out, &mut work);
        assert!(out.iter().all(|byte| *byte == BEFORE));
        assert!(work.iter().all(|number| *number == WORK_BEFORE));
        answer
    };
    let number = |number| Answer::Refused { number, record: 0 };
    assert_eq!(judged_with(&input, 31, 4096), number(3));
    assert_eq!(judged_with(&input, 31, 4095), number(3));
    assert_eq!(judged_with(&input, 32, 4095), number(4));
    assert_eq!(judged_with(&input, 32, 0), number(4));
    assert_eq!(judged_with(&input[..31], 0, 0), number(1));
    assert_eq!(judged_with(&[0; 8200], 0, 0), number(2));
    assert_eq!(judged_with(&[], 0, 0), number(4));
}

#[test]
fn numbers_5_to_7() {
    refused(&[0xA7, 0x7B, 1, 0, 0, 0, 0, 0], 5, 0);
    refused(&[0xA7, 0x7A, 0, 0, 0, 0, 0, 0], 6, 0);
    refused(&[0xA7, 0x7A, 11, 0, 0, 0, 0, 0], 6, 0);
    refused(&[0xA7, 0x7A, 3, 0, 32, 0, 0, 0], 7, 0);
    refused(&[0xA7, 0x7A, 3, 0, 0, 0, 0, 1], 7, 0);
    refused(&[0xA7, 0x7A, 1, 0, 0, 1, 0, 0], 7, 0);
}

#[test]
fn numbers_8_to_12() {
    let refused = |text: &str, number, record| refused(&bytes(text), number, record);
    refused("1 yield\n", 8, 0);
    refused("0 fork 1\n0 join 1\n1 yield\n", 8, 2);
    refused("0 fork 1\n1 join 0\n0 yield\n", 8, 2);
    refused("0 acquire 0\n0 prewait 0\n0 yield\n", 9, 2);
    refused("0 acquire 0\n0 prewait 0\n0 postwait 1\n", 9, 2);
    refused("0 acquire 0\n0 prewait 0\n0 join 0\n", 9, 2);
    refused("0 postwait 0\n", 9, 0);
    refused("0 fork 1\n0 acquire 0\n0 prewait 0\n1 acquire 0\n0 postwait 0\n", 10, 4);
    refused("0 fork 1\n0 acquire 0\n1 acquire 0\n", 10, 2);
    refused("0 release 0\n", 10, 0);
    refused("0 fork 1\n1 acquire 0\n0 notify 0\n", 10, 2);
    refused("0 fork 1\n1 acquire 0\n0 prewait 0\n", 10, 2);
    refused("0 fork 0\n", 11, 0);
    refused("0 fork 1\n1 fork 1\n", 11, 1);
    refused("0 join 0\n", 11, 0);
    refused("0 join 1\n", 11, 0);
    refused("0 write 255 65535\n0 read 255 65534\n", 12, 1);
}

#[test]
fn number_13() {
    let before = "0 yield\n".repeat(512);
    refused(&bytes(&format!("{before}0 write 0 1\n")), 13, 512);
    let known = "0 write 0 0\n0 yield\n".to_string() + &"0 yield\n".repeat(511);
    refused(&bytes(&format!("{known}0 read 0 1\n")), 12, 513);
    let joins = format!("0 fork 1\n{}", "0 join 1\n".repeat(512));
    refused(&bytes(&joins), 13, 512);
}

#[test]
fn a_refusal_comes_before_any_violation() {
    refused(&bytes(&format!("{P3}0 read 0 7\n")), 12, 4);
    // The first yield ends transaction 0; the one at record 4 + n begins number 1 + n.
    refused(&bytes(&format!("{P3}{}", "0 yield\n".repeat(600))), 13, 515);
}

#[test]
fn what_the_machine_allows() {
    cooperable("0 fork 1\n1 acquire 0\n0 join 1\n0 join 1\n", 4, &[0, 1, 2, 3]);
    cooperable("0 fork 1\n1 acquire 0\n1 prewait 0\n0 join 1\n", 3, &[0, 1, 2, 3]);
    cooperable("0 fork 1\n1 join 0\n", 2, &[0, 1]);
    // A thread that did nothing: the join stays behind the fork.
    cooperable("0 fork 1\n0 fork 2\n0 yield\n2 join 1\n", 2, &[0, 1, 2, 3]);
}

#[test]
fn the_lowest_thread_goes_first() {
    // The transactions of threads 2 and 1 do not conflict.
    cooperable(
        "0 fork 2\n0 fork 1\n0 yield\n2 write 0 1\n1 write 1 1\n2 write 0 2\n",
        3,
        &[0, 1, 2, 4, 3, 5],
    );
}

#[test]
fn the_cycle_closes_as_soon_as_it_can_and_goes_by_the_lowest() {
    // 0 has edges to 1 and 2; both lead back; only 1, the lower, is gone through.
    violation("0 fork 1\n0 fork 2\n1 write 1 1\n2 write 2 1\n0 read 1 1\n", 4, &[0, 1]);
    // Transaction 1 has an edge to 2, but none to 0 yet; so the cycle goes on.
    violation(
        "0 fork 1\n0 fork 2\n1 write 1 1\n2 read 1 1\n2 write 2 1\n0 read 2 1\n",
        5,
        &[0, 1, 2],
    );
    // Transaction 1 does not lead back: it is left out.
    violation("0 fork 1\n0 fork 2\n1 write 1 1\n2 write 2 1\n0 read 2 1\n", 4, &[0, 2]);
}
