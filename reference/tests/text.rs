//! The written form, with lines, bytes and refusals written out by hand.

use reference::text::{from_text, read, to_text, write};
use reference::Refusal;

const BEFORE: u8 = 0xEE;

/// A record of every kind, and its line.
const LINES: [(&str, [u8; 8]); 16] = [
    ("0 read 0 0\n", [0xA7, 0x7A, 1, 0, 0, 0, 0, 0]),
    ("15 read 255 65535\n", [0xA7, 0x7A, 1, 15, 255, 0, 255, 255]),
    ("0 write 3 5\n", [0xA7, 0x7A, 2, 0, 3, 0, 5, 0]),
    ("10 write 100 4613\n", [0xA7, 0x7A, 2, 10, 100, 0, 5, 18]),
    ("1 acquire 0\n", [0xA7, 0x7A, 3, 1, 0, 0, 0, 0]),
    ("1 acquire 31\n", [0xA7, 0x7A, 3, 1, 31, 0, 0, 0]),
    ("2 release 10\n", [0xA7, 0x7A, 4, 2, 10, 0, 0, 0]),
    ("3 prewait 31\n", [0xA7, 0x7A, 5, 3, 31, 0, 0, 0]),
    ("4 postwait 7\n", [0xA7, 0x7A, 6, 4, 7, 0, 0, 0]),
    ("5 notify 9\n", [0xA7, 0x7A, 7, 5, 9, 0, 0, 0]),
    ("0 fork 0\n", [0xA7, 0x7A, 8, 0, 0, 0, 0, 0]),
    ("0 fork 15\n", [0xA7, 0x7A, 8, 0, 15, 0, 0, 0]),
    ("9 join 10\n", [0xA7, 0x7A, 9, 9, 10, 0, 0, 0]),
    ("15 join 15\n", [0xA7, 0x7A, 9, 15, 15, 0, 0, 0]),
    ("0 yield\n", [0xA7, 0x7A, 10, 0, 0, 0, 0, 0]),
    ("15 yield\n", [0xA7, 0x7A, 10, 15, 0, 0, 0, 0]),
];

/// Lines without the form.
const DAMAGED: [&str; 62] = [
    // Spaces and other bytes between, before and after.
    "\n",
    " \n",
    "0  yield\n",
    " 0 yield\n",
    "0 yield \n",
    "0 write  3 5\n",
    "0 write 3  5\n",
    "0 write 3 5 \n",
    "0\tyield\n",
    "0 yield\t\n",
    "0 yield\r\n",
    "0 write 3 5\r\n",
    "0 yield\0\n",
    "\x000 yield\n",
    "0 yield;\n",
    "\u{feff}0 yield\n",
    // Numbers that are not written so.
    "00 yield\n",
    "01 yield\n",
    "0 write 03 5\n",
    "0 write 3 05\n",
    "0 write 3 00\n",
    "+0 yield\n",
    "-0 yield\n",
    "0 write 3 +5\n",
    "0 write 3 -5\n",
    "0x1 yield\n",
    "0 write v3 5\n",
    "0 acquire m0\n",
    "0 write 3 5.0\n",
    "0 write 3 \u{0665}\n",
    // Fields too few and too many.
    "yield\n",
    "0\n",
    "0 \n",
    "0 write\n",
    "0 write 3\n",
    "0 write 3 \n",
    "0 acquire\n",
    "0 fork\n",
    "0 write 3 5 7\n",
    "0 acquire 0 0\n",
    "0 join 1 0\n",
    "0 yield 0\n",
    "0 yield 0 0\n",
    "0 0 yield\n",
    // Names.
    "0 Write 3 5\n",
    "0 YIELD\n",
    "0 yiel\n",
    "0 yields\n",
    "0 wait 0\n",
    "0 1\n",
    // Numbers too large by one.
    "16 yield\n",
    "0 read 256 0\n",
    "0 read 0 65536\n",
    "0 acquire 32\n",
    "0 notify 32\n",
    "0 fork 16\n",
    "0 join 16\n",
    // No line feed.
    "0 yield",
    "0 write 3 5",
    "0",
    "0 yield\n\n",
    "0 yield0 yield\n",
];

/// 2 to the power 8, 16, 32, 64 and 128, and numbers of thirty digits.
const WRAPPING: [&str; 7] = [
    "256",
    "65536",
    "4294967296",
    "18446744073709551616",
    "340282366920938463463374607431768211456",
    "100000000000000000000000000000",
    "999999999999999999999999999999",
];

fn read_with(text: &[u8], room: usize) -> Result<Vec<u8>, Refusal> {
    let mut out = vec![BEFORE; room];
    let result = read(text, &mut out);
    let written = result.unwrap_or(0);
    assert!(out[written..].iter().all(|byte| *byte == BEFORE));
    result.map(|length| out[..length].to_vec())
}

fn write_with(input: &[u8], room: usize) -> Result<Vec<u8>, Refusal> {
    let mut out = vec![BEFORE; room];
    let result = write(input, &mut out);
    let written = result.unwrap_or(0);
    assert!(out[written..].iter().all(|byte| *byte == BEFORE));
    result.map(|length| out[..length].to_vec())
}

#[test]
fn each_line_and_its_record() {
    for (line, record) in LINES {
        assert_eq!(read_with(line.as_bytes(), 8), Ok(record.to_vec()), "{line}");
        assert_eq!(write_with(&record, line.len()), Ok(line.as_bytes().to_vec()));
    }
    let text: String = LINES.iter().map(|(line, _)| *line).collect();
    let records: Vec<u8> = LINES.iter().flat_map(|(_, record)| *record).collect();
    assert_eq!(from_text(text.as_bytes()), records);
    assert_eq!(to_text(&records), text.as_bytes());
    assert_eq!(from_text(b""), b"");
    assert_eq!(to_text(b""), b"");
}

/// The line is refused alone and behind two others. "0 yield\n\n" is a good line and an empty one.
fn is_refused(line: &str) {
    let at = if line == "0 yield\n\n" { 1 } else { 0 };
    assert_eq!(read_with(line.as_bytes(), 100), Err((14, at)), "{line:?}");
    let behind = format!("0 yield\n0 write 3 5\n{line}");
    assert_eq!(read_with(behind.as_bytes(), 100), Err((14, 2 + at)), "{behind:?}");
    let before = format!("{line}\n0 yield\n0 yield\nx\n");
    assert_eq!(read_with(before.as_bytes(), 100).map_err(|refusal| refusal.0), Err(14));
}

#[test]
fn damaged_lines() {
    DAMAGED.into_iter().for_each(is_refused);
    assert_eq!(read_with(b"0 yield\n0 yield\xFF\n", 100), Err((14, 1)));
}

#[test]
fn numbers_that_wrap_around() {
    for number in WRAPPING {
        // The same, and a little more, so that what is left over would be in range.
        for number in [number.to_string(), format!("{}8", &number[..number.len() - 1])] {
            is_refused(&format!("{number} yield\n"));
            is_refused(&format!("0 read {number} 0\n"));
            is_refused(&format!("0 acquire {number}\n"));
            is_refused(&format!("0 join {number}\n"));
            if number.len() > 3 {
                is_refused(&format!("0 write 3 {number}\n"));
            }
        }
    }
}

#[test]
fn refusals_of_reading_in_their_order() {
    let full = "0 yield\n".repeat(1024);
    let record = [0xA7, 0x7A, 10, 0, 0, 0, 0, 0];
    assert_eq!(read_with(full.as_bytes(), 8192), Ok(record.repeat(1024)));
    assert_eq!(read_with(full.as_bytes(), 8191), Err((3, 0)));
    let over = "0 yield\n".repeat(1025);
    assert_eq!(read_with(over.as_bytes(), 9000), Err((2, 0)));
    assert_eq!(read_with(over.as_bytes(), 0), Err((2, 0)));
    assert_eq!(read_with("\n".repeat(1025).as_bytes(), 9000), Err((2, 0)));
    assert_eq!(read_with("\n".repeat(1024).as_bytes(), 8191), Err((3, 0)));
    assert_eq!(read_with("\n".repeat(1024).as_bytes(), 8192), Err((14, 0)));
    // What follows the last line feed is no line feed more.
    let rest = full + "0 yield";
    assert_eq!(read_with(rest.as_bytes(), 8192), Err((14, 1024)));
    assert_eq!(read_with(b"0 yield", 0), Err((14, 0)));
    assert_eq!(read_with(b"0 yield\n0 yield", 7), Err((3, 0)));
    assert_eq!(read_with(b"0 yield\n0 yield", 8), Err((14, 1)));
}

#[test]
fn refusals_of_writing_in_their_order() {
    let good = [0xA7, 0x7A, 10, 0, 0, 0, 0, 0];
    assert_eq!(write_with(&[0; 7], 0), Err((1, 0)));
    assert_eq!(write_with(&[0; 8193], 0), Err((1, 0)));
    assert_eq!(write_with(&[0; 8200], 0), Err((2, 0)));
    let with = |record: [u8; 8]| write_with(&[good, good, record].concat(), 0);
    assert_eq!(with([0xA7, 0x7B, 11, 16, 0, 0, 0, 0]), Err((5, 2)));
    assert_eq!(with([0xB8, 0x8B, 1, 0, 0, 0, 0, 0]), Err((5, 2)));
    assert_eq!(with([0xA7, 0x7A, 11, 16, 0, 0, 0, 0]), Err((6, 2)));
    assert_eq!(with([0xA7, 0x7A, 10, 16, 0, 0, 0, 0]), Err((7, 2)));
    assert_eq!(with([0xA7, 0x7A, 3, 0, 0, 0, 1, 0]), Err((7, 2)));
    assert_eq!(with(good), Err((3, 0)));
    assert_eq!(write_with(&good, 7), Err((3, 0)));
    assert_eq!(write_with(&good, 9), Ok(b"0 yield\n".to_vec()));
    let longest = [0xA7, 0x7A, 2, 15, 255, 0, 255, 255].repeat(1024);
    assert_eq!(write_with(&longest, 19455), Err((3, 0)));
    assert_eq!(write_with(&longest, 19456), Ok(b"15 write 255 65535\n".repeat(1024)));
}

#[test]
fn what_the_programs_print() {
    assert_eq!(to_text(&[0; 7]), b"refused 1 0\n");
    assert_eq!(to_text(&[0; 8199]), b"refused 1 0\n");
    assert_eq!(to_text(&[0; 8205]), b"refused 2 0\n");
    assert_eq!(to_text(&[0; 8]), b"refused 5 0\n");
    assert_eq!(from_text(b"0 yield\n0 yeild\n"), b"refused 14 1\n");
    assert_eq!(from_text(&b"\n".repeat(1025)), b"refused 2 0\n");
    // All line feeds count, and 2 is tried before 14, however long the text is.
    let long = [&b"0 yield\n".repeat(3)[..], &[b'0'; 100000], &b"\n".repeat(1022)].concat();
    assert_eq!(from_text(&long), b"refused 2 0\n");
    assert_eq!(from_text(&long[..long.len() - 1]), b"refused 14 3\n");
    assert_eq!(from_text(&long[8..]), b"refused 14 2\n");
    assert_eq!(from_text(&long[24..]), b"refused 14 0\n");
}

#[test]
fn every_record_comes_back_from_its_line() {
    for kind in 1..=10 {
        for thread in 0..=16 {
            for target in 0..=255 {
                for [low, high] in [[0, 0], [9, 0], [0, 1], [255, 255]] {
                    let record = [0xA7, 0x7A, kind, thread, target, 0, low, high];
                    if let Ok(text) = write_with(&record, 19) {
                        assert_eq!(read_with(&text, 8), Ok(record.to_vec()));
                    }
                }
            }
        }
    }
}
