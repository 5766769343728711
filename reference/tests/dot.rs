//! Pictures of the graph, with texts and refusals written out by hand.

use reference::dot::{dot, report};
use reference::record::encode_all;
use reference::words::events;
use reference::Refusal;

const BEFORE: u8 = 0xEE;
const WORK_BEFORE: u64 = 0x5555_5555_5555_5555;

fn bytes(text: &str) -> Vec<u8> {
    encode_all(&events(text))
}

/// The picture with so much room and work area. What each end leaves is looked at here.
fn drawn(input: &[u8], room: usize, work_length: usize) -> Result<Vec<u8>, Refusal> {
    let mut out = vec![BEFORE; room];
    let mut work = vec![WORK_BEFORE; work_length];
    let result = dot(input, &mut out, &mut work);
    let written = result.unwrap_or(0);
    let cleared = result.is_ok() || result == Err((3, 0));
    assert!(out[written..].iter().all(|byte| *byte == BEFORE));
    let (first, rest) = work.split_at(work_length.min(4096));
    assert!(first.iter().all(|number| *number == if cleared { 0 } else { WORK_BEFORE }));
    assert!(rest.iter().all(|number| *number == WORK_BEFORE));
    result.map(|length| out[..length].to_vec())
}

/// The text is the picture, in exactly its room and in more, and one byte less won't do.
fn draws(input: &[u8], text: &str) {
    let room = text.len();
    assert_eq!(drawn(input, room, 4096), Ok(text.as_bytes().to_vec()));
    assert_eq!(drawn(input, room + 40, 4100), Ok(text.as_bytes().to_vec()));
    assert_eq!(drawn(input, room - 1, 4096), Err((3, 0)));
    assert_eq!(drawn(input, 0, 4100), Err((3, 0)));
    assert_eq!(report(input), text.as_bytes());
}

const P3: &str = "0 fork 1\n0 read 0 0\n1 write 0 1\n0 write 0 1\n";

#[test]
fn document_01s_examples() {
    draws(b"", "digraph {\n}\n");
    draws(&bytes("0 write 3 5\n"), "digraph {\n0;\n}\n");
    draws(
        &bytes("0 fork 1\n0 read 0 0\n1 write 0 1\n0 yield\n0 write 0 1\n"),
        "digraph {\n0;\n1;\n2;\n0 -> 1;\n0 -> 2;\n1 -> 2;\n}\n",
    );
    draws(
        &bytes("0 fork 1\n0 read 0 0\n1 read 0 0\n0 read 0 0\n"),
        "digraph {\n0;\n1;\n0 -> 1;\n}\n",
    );
    draws(
        &bytes("0 fork 1\n1 write 0 1\n0 join 1\n0 read 0 1\n"),
        "digraph {\n0;\n1;\n2;\n0 -> 1;\n0 -> 2;\n1 -> 2;\n}\n",
    );
}

#[test]
fn violations_are_drawn_whole() {
    draws(&bytes(P3), "digraph {\n0;\n1;\n0 -> 1;\n1 -> 0;\n}\n");
    // The violation is at record 3; thread 2 comes after it.
    draws(
        &bytes(&format!("{P3}0 fork 2\n2 yield\n1 yield\n1 write 0 2\n")),
        "digraph {\n0;\n1;\n2;\n3;\n0 -> 1;\n0 -> 2;\n0 -> 3;\n1 -> 0;\n1 -> 3;\n}\n",
    );
    // P9: transaction 0 forks, and 1, 2 and 3 go round.
    draws(
        &bytes(
            "0 fork 1\n0 fork 2\n0 yield\n0 write 0 1\n1 read 0 1\n1 write 1 1\n2 read 1 1\n2 write 2 1\n0 read 2 1\n",
        ),
        "digraph {\n0;\n1;\n2;\n3;\n0 -> 1;\n0 -> 2;\n0 -> 3;\n1 -> 2;\n2 -> 3;\n3 -> 1;\n}\n",
    );
}

#[test]
fn each_edge_once_and_every_two_of_one_thread() {
    // Records 1 and 2 both conflict with record 4.
    draws(
        &bytes("0 fork 1\n0 write 0 1\n0 write 0 2\n0 yield\n1 write 0 3\n1 write 0 4\n"),
        "digraph {\n0;\n1;\n0 -> 1;\n}\n",
    );
    draws(
        &bytes("0 yield\n0 yield\n0 yield\n"),
        "digraph {\n0;\n1;\n2;\n0 -> 1;\n0 -> 2;\n1 -> 2;\n}\n",
    );
}

#[test]
fn numbers_go_by_size_and_not_by_letters() {
    let text = String::from_utf8(report(&bytes(&"0 yield\n".repeat(12)))).unwrap();
    let lines: Vec<&str> = text.lines().collect();
    assert_eq!(lines[2..4], ["1;", "2;"]);
    assert_eq!(lines[11..13], ["10;", "11;"]);
    assert_eq!(lines[13..16], ["0 -> 1;", "0 -> 2;", "0 -> 3;"]);
    assert_eq!(lines[lines.len() - 3..], ["9 -> 11;", "10 -> 11;", "}"]);
}

#[test]
fn the_largest() {
    let yields = bytes(&"0 yield\n".repeat(512));
    let text = String::from_utf8(report(&yields)).unwrap();
    assert_eq!(text.lines().count(), 2 + 512 + 512 * 511 / 2);
    assert!(text.ends_with("\n510 -> 511;\n}\n"));
    draws(&yields, &text);
}

#[test]
fn refusals_in_their_order() {
    let impossible = bytes("0 acquire 0\n0 acquire 0\n");
    let over = bytes(&"0 yield\n".repeat(513));
    assert_eq!(drawn(&[0; 7], 0, 0), Err((1, 0)));
    assert_eq!(drawn(&[0; 8193], 0, 0), Err((1, 0)));
    assert_eq!(drawn(&[0; 8200], 0, 0), Err((2, 0)));
    assert_eq!(drawn(&impossible, 0, 4095), Err((4, 0)));
    assert_eq!(drawn(&bytes(P3), 0, 4095), Err((4, 0)));
    assert_eq!(drawn(&[0; 8], 0, 4096), Err((5, 0)));
    assert_eq!(drawn(&[0xA7, 0x7A, 0, 0, 0, 0, 0, 0], 0, 4096), Err((6, 0)));
    assert_eq!(drawn(&[0xA7, 0x7A, 10, 16, 0, 0, 0, 0], 0, 4096), Err((7, 0)));
    assert_eq!(drawn(&impossible, 0, 4096), Err((10, 1)));
    assert_eq!(drawn(&bytes(&format!("{P3}0 read 0 7\n")), 0, 4096), Err((12, 4)));
    assert_eq!(drawn(&over, 0, 4096), Err((13, 512)));
    assert_eq!(drawn(&bytes(P3), 0, 4096), Err((3, 0)));
}

#[test]
fn what_the_program_prints() {
    assert_eq!(report(&[0; 7]), b"refused 1 0\n");
    assert_eq!(report(&[0; 8205]), b"refused 2 0\n");
    assert_eq!(report(&bytes("0 yield\n1 yield\n")), b"refused 8 1\n");
}
