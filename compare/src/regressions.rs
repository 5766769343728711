//! Cases that failed once, kept as text: the two lengths, then a line of bytes for each record.

use std::fs;
use std::io;
use std::path::PathBuf;

use crate::case::Case;

fn folder() -> PathBuf {
    PathBuf::from(env!("CARGO_MANIFEST_DIR")).join("regressions")
}

/// All kept cases, by name.
pub fn kept() -> io::Result<Vec<(String, Case)>> {
    let mut cases = Vec::new();
    let Ok(entries) = fs::read_dir(folder()) else { return Ok(cases) };
    for entry in entries {
        let path = entry?.path();
        if path.extension().is_some_and(|extension| extension == "case") {
            let name = path.file_name().unwrap_or_default().to_string_lossy().into_owned();
            let text = fs::read_to_string(&path)?;
            let case = read(&text).unwrap_or_else(|| panic!("regressions/{name} is not a case"));
            cases.push((name, case));
        }
    }
    cases.sort_by(|one, other| one.0.cmp(&other.0));
    Ok(cases)
}

/// Keeps a case under a name that its bytes give; says the name.
pub fn keep(case: &Case) -> io::Result<String> {
    let text = write(case);
    let name = format!("{:016x}.case", sum(text.as_bytes()));
    fs::create_dir_all(folder())?;
    fs::write(folder().join(&name), text)?;
    Ok(name)
}

fn write(case: &Case) -> String {
    let Case { input, out_length, work_length, before } = case;
    let mut text = format!("out {out_length}\nwork {work_length}\nbefore {before}\n");
    for record in input.chunks(8) {
        let bytes: Vec<String> = record.iter().map(|byte| format!("{byte:02X}")).collect();
        text.push_str(&bytes.join(" "));
        text.push('\n');
    }
    text
}

fn read(text: &str) -> Option<Case> {
    let mut lines = text.lines();
    let mut number =
        |word: &str| -> Option<u64> { lines.next()?.strip_prefix(word)?.trim().parse().ok() };
    let out_length = number("out")? as usize;
    let work_length = number("work")? as usize;
    let before = number("before")?;
    let mut input = Vec::new();
    for byte in lines.flat_map(str::split_whitespace) {
        input.push(u8::from_str_radix(byte, 16).ok()?);
    }
    Some(Case { input, out_length, work_length, before })
}

/// The sum of Fowler, Noll and Vo, for a name.
fn sum(bytes: &[u8]) -> u64 {
    bytes.iter().fold(0xCBF2_9CE4_8422_2325, |sum, byte| {
        (sum ^ u64::from(*byte)).wrapping_mul(0x0100_0000_01B3)
    })
}

#[cfg(test)]
mod tests {
    use super::*;

    #[test]
    fn a_case_comes_back() {
        let case = Case { input: (0..19).collect(), out_length: 3, work_length: 0, before: 77 };
        assert_eq!(read(&write(&case)), Some(case));
    }
}
