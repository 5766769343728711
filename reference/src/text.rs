//! The written form: a line such as `0 write 3 5` for each record.

use crate::judge::{fault_of_input, Refusal};
use crate::record::{decode, encode, Event, MARK, RECORD_LENGTH};
use crate::report::{refused_line, MOST_READ};

/// The names of kinds 1 to 10.
const NAMES: [&str; 10] = [
    "read", "write", "acquire", "release", "prewait", "postwait", "notify", "fork", "join", "yield",
];

const MOST_LINES: usize = 1024;
/// No line is longer than `15 write 255 65535` with its line feed.
const LONGEST_LINE: usize = 19;

/// How many fields the kind has after its name.
fn fields(kind: u8) -> usize {
    match kind {
        1 | 2 => 2,
        10 => 0,
        _ => 1,
    }
}

/// The line of an event, without its line feed.
pub fn line(event: &Event) -> String {
    let record = encode(event);
    let kind = record[2];
    let mut words = vec![event.thread.to_string(), NAMES[usize::from(kind) - 1].to_string()];
    if fields(kind) >= 1 {
        words.push(record[4].to_string());
    }
    if fields(kind) == 2 {
        words.push((u32::from(record[6]) + 256 * u32::from(record[7])).to_string());
    }
    words.join(" ")
}

/// The event that a line says, its line feed left out.
fn event(line: &[u8]) -> Option<Event> {
    let words: Vec<&[u8]> = line.split(|byte| *byte == b' ').collect();
    let name = *words.get(1)?;
    let kind = 1 + NAMES.iter().position(|known| known.as_bytes() == name)? as u8;
    if words.len() != 2 + fields(kind) {
        return None;
    }
    let thread = u8::try_from(number(words[0])?).ok()?;
    let target = words.get(2).map_or(Some(0), |word| number(word))?;
    let target = u8::try_from(target).ok()?;
    let value = words.get(3).map_or(Some(0), |word| number(word))?;
    let [low, high] = u16::try_from(value).ok()?.to_le_bytes();
    decode(&[MARK[0], MARK[1], kind, thread, target, 0, low, high]).ok()
}

/// A decimal number without leading zeros. No field takes one of more than five digits.
fn number(word: &[u8]) -> Option<u32> {
    let digits = !word.is_empty() && word.iter().all(|byte| (b'0'..=b'9').contains(byte));
    let leading_zero = word.len() > 1 && word[0] == b'0';
    if !digits || leading_zero || word.len() > 5 {
        return None;
    }
    Some(word.iter().fold(0, |number, digit| 10 * number + u32::from(digit - b'0')))
}

/// Reads a text; gives the number of bytes written. A refusal leaves the output as it was.
pub fn read(text: &[u8], out: &mut [u8]) -> Result<usize, Refusal> {
    let mut lines: Vec<&[u8]> = text.split(|byte| *byte == b'\n').collect();
    let rest = lines.pop().expect("a split has a last part");
    if lines.len() > MOST_LINES {
        return Err((2, 0));
    }
    if out.len() < RECORD_LENGTH * lines.len() {
        return Err((3, 0));
    }
    let mut records = Vec::new();
    for (place, line) in lines.iter().enumerate() {
        records.extend(encode(&event(line).ok_or((14, place))?));
    }
    if !rest.is_empty() {
        return Err((14, lines.len()));
    }
    out[..records.len()].copy_from_slice(&records);
    Ok(records.len())
}

/// Writes records as a text; gives the number of bytes written. A refusal leaves the output as it
/// was. That the records are a possible history is not asked.
pub fn write(input: &[u8], out: &mut [u8]) -> Result<usize, Refusal> {
    if let Some(number) = fault_of_input(input) {
        return Err((number, 0));
    }
    let mut text = String::new();
    for (place, record) in input.chunks(RECORD_LENGTH).enumerate() {
        let event = decode(record).map_err(|number| (number, place))?;
        text.push_str(&line(&event));
        text.push('\n');
    }
    if out.len() < text.len() {
        return Err((3, 0));
    }
    out[..text.len()].copy_from_slice(text.as_bytes());
    Ok(text.len())
}

/// What the program `to_text` prints for this standard input.
pub fn to_text(standard_input: &[u8]) -> Vec<u8> {
    let input = &standard_input[..standard_input.len().min(MOST_READ)];
    let mut out = vec![0; LONGEST_LINE * MOST_LINES];
    let written = write(input, &mut out);
    printed(out, written)
}

/// What the program `from_text` prints for this standard input, however long.
pub fn from_text(standard_input: &[u8]) -> Vec<u8> {
    let mut out = vec![0; RECORD_LENGTH * MOST_LINES];
    let written = read(standard_input, &mut out);
    printed(out, written)
}

fn printed(mut out: Vec<u8>, written: Result<usize, Refusal>) -> Vec<u8> {
    match written {
        Ok(length) => {
            out.truncate(length);
            out
        }
        Err(refusal) => refused_line(refusal).into_bytes(),
    }
}
