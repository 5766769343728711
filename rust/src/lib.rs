//! The proved checker of yield marks, for Rust.
//!
//! ```
//! use quelohuite::{judge, Answer, WORK_AREA};
//!
//! let recording = [0xA7, 0x7A, 2, 0, 3, 0, 5, 0]; // thread 0 writes 5 to variable 3
//! let mut out = [0; 8];
//! let mut work = vec![0; WORK_AREA];
//! let answer = judge(&recording, &mut out, &mut work);
//! assert_eq!(answer, Answer::Cooperable { records: 1, transactions: 1 });
//! assert_eq!(out, recording);
//! ```

/// Bytes of the longest recording. An output as long as the recording is enough.
pub const MOST_BYTES: usize = 8192;
/// Numbers that the work area needs.
pub const WORK_AREA: usize = 4096;

#[derive(Clone, Copy, Debug, PartialEq, Eq)]
pub enum Answer {
    /// The output begins with the serial trace: 8 bytes for each record.
    Cooperable { records: u64, transactions: u64 },
    /// The output begins with the cycle's transactions: 2 bytes each, low byte first.
    Violation { record: u64, length: u64 },
    /// By its number, 1 to 13. Output and work area are as they were.
    Refused { number: u64, record: u64 },
}

/// On what two records conflict, and its number.
#[derive(Clone, Copy, Debug, PartialEq, Eq)]
pub enum Reason {
    Thread(u64),
    Variable(u64),
    Lock(u64),
    /// The thread that is forked or joined.
    ForkJoin(u64),
}

/// What is told of an edge of the reported cycle.
#[derive(Clone, Copy, Debug, PartialEq, Eq)]
pub enum Told {
    /// The earliest two records that make the edge, and why they do.
    Because { first: u64, second: u64, reason: Reason },
    /// There is no violation, or the place isn't below the cycle's length.
    NoSuchEdge,
    /// As `Answer::Refused`.
    Refused { number: u64, record: u64 },
}

/// Why something was refused, as `Answer::Refused`.
#[derive(Clone, Copy, Debug, PartialEq, Eq)]
pub struct Refusal {
    pub number: u64,
    pub record: u64,
}

/// What was proposed.
#[derive(Clone, Copy, Debug, PartialEq, Eq)]
pub struct Proposed {
    /// Bytes of the finished recording, at the front of the output.
    pub bytes: u64,
    /// Yields that were added.
    pub yields: u64,
}

/// The answer as the library gives it.
#[repr(C)]
struct Numbers {
    kind: u64,
    first: u64,
    second: u64,
}

impl Numbers {
    fn answer(self) -> Answer {
        let Numbers { kind, first, second } = self;
        match kind {
            0 => Answer::Cooperable { records: first, transactions: second },
            1 => Answer::Violation { record: first, length: second },
            2 => Answer::Refused { number: first, record: second },
            _ => panic!("the library answers no kind but 0, 1 and 2; it answered {kind}"),
        }
    }

    /// Of what is written or refused, and no more.
    fn written(self) -> Result<(u64, u64), Refusal> {
        let Numbers { kind, first, second } = self;
        match kind {
            0 => Ok((first, second)),
            2 => Err(Refusal { number: first, record: second }),
            _ => panic!("the library answers no kind but 0 and 2 here; it answered {kind}"),
        }
    }
}

/// What is told of an edge, as the library gives it.
#[repr(C)]
struct Values {
    kind: u64,
    first: u64,
    second: u64,
    reason: u64,
    number: u64,
}

impl Values {
    fn told(self) -> Told {
        let Values { kind, first, second, reason, number } = self;
        let reason = match reason {
            0 => Reason::Thread(number),
            1 => Reason::Variable(number),
            2 => Reason::Lock(number),
            3 => Reason::ForkJoin(number),
            _ => panic!("the library gives no reason but 0 to 3; it gave {reason}"),
        };
        match kind {
            0 => Told::Because { first, second, reason },
            1 => Told::NoSuchEdge,
            2 => Told::Refused { number: first, record: second },
            _ => panic!("the library tells no kind but 0, 1 and 2; it told {kind}"),
        }
    }
}

/// Judges one recording.
///
/// After cooperable or violation the work area's first 4,096 numbers are 0; the rest of it, and the
/// output past what the answer names, are as they were. Buffers of any length may be lent: one that
/// is too short is refused by its number.
pub fn judge(input: &[u8], out: &mut [u8], work: &mut [u64]) -> Answer {
    library::judge(input, out, work).answer()
}

/// Judges one recording by the plain engine, which compares every two records: the same answer, output
/// and work area, more slowly. It is there to be held against.
pub fn judge_plain(input: &[u8], out: &mut [u8], work: &mut [u64]) -> Answer {
    library::judge_plain(input, out, work).answer()
}

/// Judges one recording, and tells why the edge at a place of the reported cycle is there.
///
/// Places count from 0; the last edge goes back to the cycle's first transaction. Output and work
/// area end as after `judge`.
pub fn why(input: &[u8], out: &mut [u8], work: &mut [u64], place: usize) -> Told {
    library::why(input, out, work, place).told()
}

/// Draws the transactions and edges of one recording in the DOT language, also of a violation: how
/// many bytes of text stand at the front of the output.
///
/// Refusal 3, tried last, says that the text doesn't fit; the output is then as it was and the work
/// area's first 4,096 numbers are 0. After any other refusal both are as they were.
pub fn dot(input: &[u8], out: &mut [u8], work: &mut [u64]) -> Result<u64, Refusal> {
    library::dot(input, out, work).written().map(|(bytes, _)| bytes)
}

/// Puts a yield before each record of one recording that would be a violation; the finished
/// recording stands at the front of the output.
///
/// Refusal 3 says that the output has fewer than 8,192 bytes. 15 (over 1,024 records) and 13 may come
/// from the walk itself: the output is then as it was and the work area's first 4,096 numbers are 0.
pub fn propose(input: &[u8], out: &mut [u8], work: &mut [u64]) -> Result<Proposed, Refusal> {
    library::propose(input, out, work).written().map(|(bytes, yields)| Proposed { bytes, yields })
}

#[cfg(linked)]
mod library {
    use super::{Numbers, Values};

    extern "C" {
        fn quelohuite_judge(
            input: *const u8,
            input_length: usize,
            output: *mut u8,
            output_length: usize,
            work: *mut u64,
            work_length: usize,
        ) -> Numbers;
        fn quelohuite_judge_plain(
            input: *const u8,
            input_length: usize,
            output: *mut u8,
            output_length: usize,
            work: *mut u64,
            work_length: usize,
        ) -> Numbers;
        fn quelohuite_dot(
            input: *const u8,
            input_length: usize,
            output: *mut u8,
            output_length: usize,
            work: *mut u64,
            work_length: usize,
        ) -> Numbers;
        fn quelohuite_propose(
            input: *const u8,
            input_length: usize,
            output: *mut u8,
            output_length: usize,
            work: *mut u64,
            work_length: usize,
        ) -> Numbers;
        fn quelohuite_why(
            input: *const u8,
            input_length: usize,
            output: *mut u8,
            output_length: usize,
            work: *mut u64,
            work_length: usize,
            place: usize,
        ) -> Values;
    }

    /// The type of all that answer in three numbers.
    type Judges =
        unsafe extern "C" fn(*const u8, usize, *mut u8, usize, *mut u64, usize) -> Numbers;

    fn by(judges: Judges, input: &[u8], out: &mut [u8], work: &mut [u64]) -> Numbers {
        // The function asks nothing of its slices save that they are slices and don't overlap.
        unsafe {
            judges(
                input.as_ptr(),
                input.len(),
                out.as_mut_ptr(),
                out.len(),
                work.as_mut_ptr(),
                work.len(),
            )
        }
    }

    pub fn judge(input: &[u8], out: &mut [u8], work: &mut [u64]) -> Numbers {
        by(quelohuite_judge, input, out, work)
    }

    pub fn judge_plain(input: &[u8], out: &mut [u8], work: &mut [u64]) -> Numbers {
        by(quelohuite_judge_plain, input, out, work)
    }

    pub fn dot(input: &[u8], out: &mut [u8], work: &mut [u64]) -> Numbers {
        by(quelohuite_dot, input, out, work)
    }

    pub fn propose(input: &[u8], out: &mut [u8], work: &mut [u64]) -> Numbers {
        by(quelohuite_propose, input, out, work)
    }

    pub fn why(input: &[u8], out: &mut [u8], work: &mut [u64], place: usize) -> Values {
        // As above.
        unsafe {
            quelohuite_why(
                input.as_ptr(),
                input.len(),
                out.as_mut_ptr(),
                out.len(),
                work.as_mut_ptr(),
                work.len(),
                place,
            )
        }
    }
}

#[cfg(not(linked))]
mod library {
    use super::{Numbers, Values};
    use std::cell::RefCell;
    use std::io::{self, Read, Write};
    use std::process::{Child, Command, Stdio};

    /// A server over the library, under the machine's emulator.
    struct Server(Child);

    thread_local! {
        static SERVER: RefCell<Server> = RefCell::new(Server::start());
    }

    impl Server {
        fn start() -> Server {
            let toolchain = env!("QUELOHUITE_TOOLCHAIN");
            let child = Command::new(format!("{toolchain}/lib/ld-linux-x86-64.so.2"))
                .args(["--library-path", &format!("{toolchain}/lib")])
                .arg(env!("QUELOHUITE_SERVER"))
                .stdin(Stdio::piped())
                .stdout(Stdio::piped())
                .spawn();
            Server(child.expect("the machine runs x86-64 programs"))
        }

        fn ask(
            &mut self,
            function: u64,
            place: usize,
            input: &[u8],
            out: &mut [u8],
            work: &mut [u64],
        ) -> io::Result<[u64; 5]> {
            let mut request = function.to_le_bytes().to_vec();
            for number in [place, input.len(), out.len(), work.len()] {
                request.extend((number as u64).to_le_bytes());
            }
            request.extend_from_slice(input);
            request.extend_from_slice(out);
            request.extend(work.iter().flat_map(|number| number.to_le_bytes()));
            self.0.stdin.as_mut().expect("it is piped").write_all(&request)?;

            let reply = self.0.stdout.as_mut().expect("it is piped");
            let mut numbers = [0; 40];
            reply.read_exact(&mut numbers)?;
            reply.read_exact(out)?;
            let mut bytes = vec![0; 8 * work.len()];
            reply.read_exact(&mut bytes)?;
            for (number, bytes) in work.iter_mut().zip(bytes.chunks(8)) {
                *number = number_of(bytes);
            }
            Ok([0, 8, 16, 24, 32].map(|at| number_of(&numbers[at..at + 8])))
        }
    }

    impl Drop for Server {
        fn drop(&mut self) {
            drop(self.0.stdin.take());
            let _ = self.0.wait();
        }
    }

    fn number_of(bytes: &[u8]) -> u64 {
        u64::from_le_bytes(bytes.try_into().expect("eight bytes"))
    }

    fn ask(
        function: u64,
        place: usize,
        input: &[u8],
        out: &mut [u8],
        work: &mut [u64],
    ) -> [u64; 5] {
        SERVER
            .with(|server| server.borrow_mut().ask(function, place, input, out, work))
            .expect("the server over the library replies")
    }

    fn by(function: u64, input: &[u8], out: &mut [u8], work: &mut [u64]) -> Numbers {
        let [kind, first, second, ..] = ask(function, 0, input, out, work);
        Numbers { kind, first, second }
    }

    pub fn judge(input: &[u8], out: &mut [u8], work: &mut [u64]) -> Numbers {
        by(0, input, out, work)
    }

    pub fn judge_plain(input: &[u8], out: &mut [u8], work: &mut [u64]) -> Numbers {
        by(2, input, out, work)
    }

    pub fn dot(input: &[u8], out: &mut [u8], work: &mut [u64]) -> Numbers {
        by(3, input, out, work)
    }

    pub fn propose(input: &[u8], out: &mut [u8], work: &mut [u64]) -> Numbers {
        by(4, input, out, work)
    }

    pub fn why(input: &[u8], out: &mut [u8], work: &mut [u64], place: usize) -> Values {
        let [kind, first, second, reason, number] = ask(1, place, input, out, work);
        Values { kind, first, second, reason, number }
    }
}

#[cfg(test)]
mod tests {
    use super::*;

    #[test]
    fn buffers_of_any_length_may_be_lent() {
        let recording = [0xA7, 0x7A, 10, 0, 0, 0, 0, 0].repeat(2);
        let refused = |number| Answer::Refused { number, record: 0 };
        let judged = |input: &[u8], out: usize, work: usize| {
            judge(input, &mut vec![0; out], &mut vec![0; work])
        };
        assert_eq!(judged(&recording[..15], 0, 0), refused(1));
        assert_eq!(judged(&[0; 8200], 0, 0), refused(2));
        assert_eq!(judged(&recording, 15, 0), refused(3));
        assert_eq!(judged(&recording, 16, 4095), refused(4));
        let cooperable = Answer::Cooperable { records: 2, transactions: 2 };
        assert_eq!(judged(&recording, 16, 4096), cooperable);
    }
    #[test]
    fn an_edge_past_the_cycle_is_none() {
        // Thread 0 forks thread 1 and writes variable 0; thread 1 writes it in between.
        let record = |kind, thread, target, value| [0xA7, 0x7A, kind, thread, target, 0, value, 0];
        let recording =
            [record(8, 0, 1, 0), record(2, 0, 0, 5), record(2, 1, 0, 6), record(2, 0, 0, 7)]
                .concat();
        let mut out = vec![0; recording.len()];
        let mut work = vec![1; WORK_AREA];
        let mut asked = |place| why(&recording, &mut out, &mut work, place);
        let variable = Reason::Variable(0);
        assert_eq!(asked(0), Told::Because { first: 0, second: 2, reason: Reason::ForkJoin(1) });
        assert_eq!(asked(1), Told::Because { first: 2, second: 3, reason: variable });
        assert_eq!(asked(2), Told::NoSuchEdge);
        assert_eq!(asked(usize::MAX), Told::NoSuchEdge);
        assert_eq!(out[..4], [0, 0, 1, 0]);
        assert!(work.iter().all(|&number| number == 0));
        let refused = why(&recording[..9], &mut out, &mut work, 0);
        assert_eq!(refused, Told::Refused { number: 1, record: 0 });
    }
}
