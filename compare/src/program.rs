//! The programs, each run as a process of its own.

use std::ffi::OsStr;
use std::io::{self, Read, Write};
use std::path::{Path, PathBuf};
use std::process::{Child, Command, Stdio};
use std::thread::sleep;
use std::time::Duration;

/// What a program has to print for a standard input.
type Expected = fn(&[u8]) -> Vec<u8>;

/// How the program is started on this machine, and what it is held to.
pub struct Program {
    name: &'static str,
    words: Vec<PathBuf>,
    expected: Expected,
}

impl Program {
    pub fn judge() -> Result<Program, String> {
        Program::find("judge", |input| reference::report(input).into_bytes())
    }

    pub fn why() -> Result<Program, String> {
        Program::find("why", |input| reference::why::report(input).into_bytes())
    }

    pub fn to_text() -> Result<Program, String> {
        Program::find("to_text", reference::text::to_text)
    }

    pub fn from_text() -> Result<Program, String> {
        Program::find("from_text", reference::text::from_text)
    }

    pub fn dot() -> Result<Program, String> {
        Program::find("dot", reference::dot::report)
    }

    pub fn propose() -> Result<Program, String> {
        Program::find("propose", |input| reference::propose::report(input).text)
    }

    /// Finds the program in target/bin and a way to run it: by itself, or by the kit's loader.
    fn find(name: &'static str, expected: Expected) -> Result<Program, String> {
        let path = Path::new(env!("CARGO_MANIFEST_DIR")).join("../target/bin").join(name);
        if !path.exists() {
            return Err(format!("target/bin/{name} is not there: make it by `tools/build`"));
        }
        let by_itself = Program { name, words: vec![path.clone()], expected };
        if by_itself.starts() {
            return Ok(by_itself);
        }
        let by_the_kit = Program { name, words: words_of_the_kit(path)?, expected };
        if by_the_kit.starts() {
            return Ok(by_the_kit);
        }
        Err(format!("target/bin/{name} does not start, by itself or by the kit's loader"))
    }

    fn starts(&self) -> bool {
        self.printed(b"", 1).is_ok()
    }

    fn spawn(&self, words: &[&OsStr]) -> io::Result<Child> {
        Command::new(&self.words[0])
            .args(&self.words[1..])
            .args(words)
            .stdin(Stdio::piped())
            .stdout(Stdio::piped())
            .stderr(Stdio::inherit())
            .spawn()
    }

    /// What it prints for this standard input, which comes in so many pieces.
    pub fn printed(&self, input: &[u8], pieces: usize) -> io::Result<Vec<u8>> {
        self.printed_with(&[], input, pieces)
    }

    /// The same, with these words behind its name.
    pub fn printed_with(
        &self,
        words: &[&OsStr],
        input: &[u8],
        pieces: usize,
    ) -> io::Result<Vec<u8>> {
        let mut child = self.spawn(words)?;
        if let Some(mut pipe) = child.stdin.take() {
            for (place, piece) in input.chunks((input.len() / pieces).max(1)).enumerate() {
                if place > 0 {
                    sleep(Duration::from_millis(2));
                }
                // It stops reading at its limit, and then the pipe may be shut.
                if pipe.write_all(piece).is_err() {
                    break;
                }
            }
        }
        let mut printed = Vec::new();
        if let Some(mut pipe) = child.stdout.take() {
            pipe.read_to_end(&mut printed)?;
        }
        let status = child.wait()?;
        if !status.success() {
            return Err(io::Error::other(format!("it ended with {status}")));
        }
        Ok(printed)
    }

    /// What it and the reference differ in, in words.
    pub fn difference(&self, input: &[u8], pieces: usize) -> Option<String> {
        let expected = (self.expected)(input);
        let name = self.name;
        match self.printed(input, pieces) {
            Ok(printed) if printed == expected => None,
            Ok(printed) => Some(format!(
                "{name} prints:\n{}\nreference prints:\n{}",
                shown(&printed),
                shown(&expected)
            )),
            Err(error) => Some(format!("{name}: {error}")),
        }
    }
}

/// The first lines, with every byte that no line of text has written out.
pub fn shown(bytes: &[u8]) -> String {
    let shown = &bytes[..bytes.len().min(1000)];
    let lines = shown.split_inclusive(|byte| *byte == b'\n');
    let text: String = lines.map(|line| format!("  {}\n", line.escape_ascii())).collect();
    format!("{text}  ({} bytes in all)\n", bytes.len())
}

/// The kit is found from `rt doc`, which names a page in its folder.
fn words_of_the_kit(program: PathBuf) -> Result<Vec<PathBuf>, String> {
    let said = Command::new("rt").arg("doc").output().map_err(|e| format!("rt doc: {e}"))?;
    let page = PathBuf::from(String::from_utf8_lossy(&said.stdout).trim().to_string());
    let lib = page.parent().ok_or("rt doc names no page of the kit")?.join("toolchain/lib");
    Ok(vec![lib.join("ld-linux-x86-64.so.2"), "--library-path".into(), lib, program])
}
