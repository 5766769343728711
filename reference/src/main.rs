//! Reads standard input and prints what a program prints, `judge` or the one that is named first.
//! `propose` writes the finished recording to a file that is named after it.

use std::fs::File;
use std::io::{self, Read, Write};

use reference::{dot, propose, report, text, why};

fn main() -> io::Result<()> {
    let mut input = Vec::new();
    io::stdin().lock().read_to_end(&mut input)?;
    let printed = match std::env::args().nth(1).as_deref() {
        None | Some("judge") => report(&input).into_bytes(),
        Some("why") => why::report(&input).into_bytes(),
        Some("to_text") => text::to_text(&input),
        Some("from_text") => text::from_text(&input),
        Some("dot") => dot::report(&input),
        Some("propose") => proposed(&input, std::env::args().nth(2))?,
        Some(_) => b"reference [judge | why | to_text | from_text | dot | propose]\n".to_vec(),
    };
    io::stdout().lock().write_all(&printed)
}

fn proposed(input: &[u8], file: Option<String>) -> io::Result<Vec<u8>> {
    let report = propose::report(input);
    if let (Some(name), Some(finished)) = (file, report.file) {
        File::create_new(name)?.write_all(&finished)?;
    }
    Ok(report.text)
}
