//! All that judges: the library's engines, and those in C that bench/ measures.

use reference::Answer;

use crate::library;

/// A judgement, said as the reference says it.
pub type Judges = fn(&[u8], &mut [u8], &mut [u64]) -> Answer;

/// Each is held to the reference on every recording.
pub const ENGINES: [(&str, Judges); 4] = [
    ("judge", library::judge),
    ("judge by the plain engine", library::judge_plain),
    ("the fast engine in C", fast_in_c),
    ("the plain one in C", plain_in_c),
];

#[repr(C)]
struct Numbers {
    kind: u64,
    first: u64,
    second: u64,
}

/// The type of both functions in C.
type JudgesInC = unsafe extern "C" fn(*const u8, usize, *mut u8, usize, *mut u64, usize) -> Numbers;

extern "C" {
    fn fast_judge(
        input: *const u8,
        input_length: usize,
        output: *mut u8,
        output_length: usize,
        work: *mut u64,
        work_length: usize,
    ) -> Numbers;
    fn plain_judge(
        input: *const u8,
        input_length: usize,
        output: *mut u8,
        output_length: usize,
        work: *mut u64,
        work_length: usize,
    ) -> Numbers;
}

fn fast_in_c(input: &[u8], out: &mut [u8], work: &mut [u64]) -> Answer {
    in_c(fast_judge, input, out, work)
}

fn plain_in_c(input: &[u8], out: &mut [u8], work: &mut [u64]) -> Answer {
    in_c(plain_judge, input, out, work)
}

fn in_c(judge: JudgesInC, input: &[u8], out: &mut [u8], work: &mut [u64]) -> Answer {
    // It reads and writes within the lengths that it is given.
    let Numbers { kind, first, second } = unsafe {
        judge(
            input.as_ptr(),
            input.len(),
            out.as_mut_ptr(),
            out.len(),
            work.as_mut_ptr(),
            work.len(),
        )
    };
    match kind {
        0 => Answer::Cooperable { records: first, transactions: second },
        1 => Answer::Violation { record: first, length: second },
        _ => Answer::Refused { number: first, record: second },
    }
}
