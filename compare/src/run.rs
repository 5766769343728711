//! The phases of a run, and what is said of a failing case.

use std::fmt::Debug;
use std::time::Instant;

use reference::words::words_of_bytes;
use reference::MOST_BYTES;

use crate::case::Case;
use crate::graphviz::Graphviz;
use crate::numbers::Numbers;
use crate::options::Options;
use crate::places::Asked;
use crate::program::{shown, Program};
use crate::shrink::shrink;
use crate::small::alphabets;
use crate::swapped::{outcome, Outcome};
use crate::tally::Tally;
use crate::writing::Writes;
use crate::{edges, fixed, library, places, proposals, recordings, regressions, texts, writing};

/// After so many failures a run stops: the first ones say enough.
const MOST_FAILURES: u64 = 5;

/// Graphviz takes long for longer pictures: only the longest of all is shown to it.
const MOST_SHOWN: usize = 20_000;

/// Bytes of the longest fixed recording that yields are proposed for.
const MOST_PROPOSED: usize = 8 * 512;

/// Says in words what a case shows to differ.
type Differs<'a> = &'a dyn Fn(&Case) -> Option<String>;

struct Run {
    passed: u64,
    failed: u64,
    tally: Tally,
    started: Instant,
}

/// Does all that is asked for; gives the number of failures.
pub fn run(options: &Options) -> u64 {
    println!("seed {}", options.seed);
    let mut run = Run { passed: 0, failed: 0, tally: Tally::default(), started: Instant::now() };
    run.regressions();
    if options.fixed > 0 {
        run.phase("fixed recordings", |run| {
            let inputs = fixed::recordings().into_iter().chain(fixed::limits_of_fields());
            inputs.for_each(|input| run.library(Case::plain(input)));
        });
    }
    if options.small > 0 {
        run.phase("small histories", |run| run.small(options.small));
    }
    run.phase("random recordings", |run| run.random(options.count, options.seed));
    run.phase("recordings and all their swaps", |run| run.swaps(options.swaps, options.seed));
    if options.program > 0 {
        run.phase("runs of the program", |run| run.program(options.program, options.seed));
    }
    if options.why > 0 {
        run.phase("runs of the program why", |run| run.why(options.why, options.seed));
    }
    if options.places > 0 {
        run.phase("asked by place", |run| run.places(options.places, options.seed));
    }
    if options.text > 0 {
        run.phase("runs of to_text", |run| run.texts_written(options.text, options.seed));
        run.phase("runs of from_text", |run| run.texts_read(options.text, options.seed));
    }
    if options.dot > 0 {
        run.phase("pictures of the graph", |run| run.pictures(options.dot, options.seed));
    }
    if options.propose > 0 {
        run.phase("proposals of yields", |run| run.proposals(options.propose, options.seed));
    }
    run.tally.print();
    // A run of full size has to have met every refusal at every kind of record.
    if run.failed == 0 && options.fixed > 0 && options.count >= 100_000 {
        for missing in run.tally.never_seen() {
            println!("never seen: {missing}");
            run.failed += 1;
        }
    }
    println!("{} passed, {} failed", run.passed, run.failed);
    run.failed
}

impl Run {
    fn phase(&mut self, name: &str, work: impl FnOnce(&mut Run)) {
        let before = self.passed + self.failed;
        if self.failed < MOST_FAILURES {
            work(self);
        }
        let done = self.passed + self.failed - before;
        println!("{done} {name}, at {:.1} s", self.started.elapsed().as_secs_f64());
    }

    fn regressions(&mut self) {
        let kept = regressions::kept().expect("the kept cases can be read");
        self.phase("kept cases", |run| kept.into_iter().for_each(|(_, case)| run.library(case)));
    }

    fn library(&mut self, case: Case) {
        if self.failed >= MOST_FAILURES {
            return;
        }
        match case.compared() {
            Ok(answer) => {
                self.passed += 1;
                self.tally.count(&case.input, &answer);
            }
            Err(_) => self.fail(&case, &|case| case.compared().err()),
        }
    }

    fn small(&mut self, depth: usize) {
        for alphabet in alphabets(depth - 1) {
            alphabet.visit(&mut |input| self.library(Case::plain(input)));
        }
    }

    fn random(&mut self, count: u64, seed: u64) {
        for place in 0..count {
            // Each recording has a seed of its own, so that one that fails can be made again alone.
            let mut numbers =
                Numbers::from_seed(seed.wrapping_mul(0x1_0000_0001).wrapping_add(place));
            let input = recordings::any(&mut numbers);
            self.library(Case::with_lengths_of_all_sorts(input, &mut numbers));
        }
    }

    fn swaps(&mut self, count: u64, seed: u64) {
        let mut numbers = Numbers::from_seed(!seed);
        let (mut cooperable_ones, mut violations) = (0, 0);
        while cooperable_ones + violations < count && self.failed < MOST_FAILURES {
            let case = Case::plain(recordings::small(&mut numbers));
            match outcome(&case.input) {
                Outcome::NotExplored => continue,
                Outcome::Agrees { cooperable: true } => cooperable_ones += 1,
                Outcome::Agrees { cooperable: false } => violations += 1,
                Outcome::Differs(_) => self.fail(&case, &swaps_differ),
            }
        }
        self.passed += cooperable_ones + violations;
        println!("of all swaps explored: {cooperable_ones} cooperable, {violations} violations");
    }

    fn program(&mut self, count: u64, seed: u64) {
        let mut numbers = Numbers::from_seed(seed.rotate_left(32));
        let mut inputs = kept_and_fixed();
        inputs.extend((0..count).map(|_| recordings::any(&mut numbers)));
        self.runs(Program::judge(), inputs);
    }

    fn why(&mut self, count: u64, seed: u64) {
        let mut numbers = Numbers::from_seed(!seed.rotate_left(32));
        let mut inputs = kept_and_fixed();
        inputs.extend(edges::recordings());
        inputs.extend((0..count).map(|_| recordings::violation(&mut numbers)));
        inputs.extend((0..count).map(|_| recordings::any(&mut numbers)));
        edges::print(&inputs);
        self.runs(Program::why(), inputs);
    }

    fn places(&mut self, count: u64, seed: u64) {
        let mut numbers = Numbers::from_seed(seed.rotate_left(8));
        let cases = places::cases(kept_and_fixed(), count, &mut numbers);
        let mut asked = Asked::default();
        for case in cases {
            if self.failed >= MOST_FAILURES {
                return;
            }
            match places::compared(&case) {
                Ok(more) => {
                    self.passed += more.all();
                    asked.add(&more);
                }
                Err(_) => self.fail(&case, &|case| places::compared(case).err()),
            }
        }
        let Asked { edges, past_the_end, refused, longest } = asked;
        println!(
            "of asked by place: {edges} edges (cycles to {longest}), {past_the_end} past the end, {refused} refused"
        );
    }

    fn texts_written(&mut self, count: u64, seed: u64) {
        let mut numbers = Numbers::from_seed(seed.rotate_left(16));
        let mut inputs = kept_and_fixed();
        inputs.extend(texts::records());
        inputs.extend((0..count).map(|_| recordings::any(&mut numbers)));
        inputs.extend((0..count).map(|_| texts::any_records(&mut numbers)));
        self.runs(Program::to_text(), inputs);
    }

    fn texts_read(&mut self, count: u64, seed: u64) {
        let Some(program) = self.found(Program::from_text()) else { return };
        let mut numbers = Numbers::from_seed(seed.rotate_left(48));
        let mut inputs = texts::fixed();
        inputs.extend((0..count).map(|_| texts::any(&mut numbers)));
        for (place, input) in inputs.into_iter().enumerate() {
            let pieces = if place % 8 == 0 { 3 } else { 1 };
            if self.failed >= MOST_FAILURES {
                return;
            }
            match program.difference(&input, pieces) {
                None => self.passed += 1,
                Some(said) => {
                    self.failed += 1;
                    println!("failed on the text\n{}{said}", shown(&input));
                }
            }
        }
    }

    fn pictures(&mut self, count: u64, seed: u64) {
        let mut numbers = Numbers::from_seed(seed.rotate_left(24));
        let mut inputs = kept_and_fixed();
        inputs.extend(edges::recordings());
        for _ in 0..count {
            inputs.extend([recordings::violation(&mut numbers), recordings::any(&mut numbers)]);
        }
        self.graphviz(&inputs);
        let needed = |input: &[u8]| reference::dot::report(input).len();
        self.written(library::dot, reference::dot::dot, needed, &inputs, &mut numbers);
        self.runs(Program::dot(), inputs);
    }

    fn proposals(&mut self, count: u64, seed: u64) {
        let mut numbers = Numbers::from_seed(seed.rotate_left(40));
        let short = |input: &Vec<u8>| input.len() <= MOST_PROPOSED;
        let mut inputs: Vec<Vec<u8>> = kept_and_fixed().into_iter().filter(short).collect();
        inputs.extend(edges::recordings());
        for _ in 0..count {
            inputs.extend([recordings::violation(&mut numbers), recordings::any(&mut numbers)]);
        }
        inputs.extend(proposals::recordings(count, &mut numbers));
        proposals::print(&inputs);
        let reference = reference::propose::propose;
        self.written(library::propose, reference, |_| MOST_BYTES, &inputs, &mut numbers);
        let Some(program) = self.found(Program::propose()) else { return };
        let file = proposals::new_file();
        for (place, input) in inputs.into_iter().enumerate() {
            let pieces = if place % 8 == 0 { 3 } else { 1 };
            if self.failed < MOST_FAILURES {
                self.check(&Case::plain(input), &|case| {
                    proposals::difference(&program, &file, &case.input, pieces)
                });
            }
        }
    }

    /// Graphviz reads each picture as the graph that was meant. Where it isn't installed, this is
    /// said, and nothing is counted.
    fn graphviz(&mut self, inputs: &[Vec<u8>]) {
        let Some(graphviz) = Graphviz::find() else {
            println!("Graphviz is not installed: no picture is shown to it");
            return;
        };
        let Some(program) = self.found(Program::dot()) else { return };
        let drawn = |input: &[u8]| {
            let picture = program.printed(input, 1).ok()?;
            picture.starts_with(b"digraph").then_some(picture)
        };
        let lengths: Vec<usize> =
            inputs.iter().map(|input| drawn(input).map_or(0, |picture| picture.len())).collect();
        let longest = lengths.iter().copied().max().unwrap_or(0);
        let mut shown = 0;
        for (input, length) in inputs.iter().zip(lengths) {
            let is_shown = length > 0 && (length <= MOST_SHOWN || length == longest);
            if is_shown && self.failed < MOST_FAILURES {
                shown += 1;
                self.check(&Case::plain(input.clone()), &|case| {
                    graphviz.difference(&drawn(&case.input)?)
                });
            }
        }
        println!("of pictures: {shown} read by Graphviz, the longest of {longest} bytes");
    }

    /// A function of the library that writes, with the output that it needs, and with more and less.
    fn written<A: Debug + PartialEq>(
        &mut self,
        library: Writes<A>,
        reference: Writes<A>,
        needed: impl Fn(&[u8]) -> usize,
        inputs: &[Vec<u8>],
        numbers: &mut Numbers,
    ) {
        for input in inputs {
            for case in writing::cases(input, needed(input), numbers) {
                if self.failed < MOST_FAILURES {
                    self.check(&case, &|case| writing::compared(case, library, reference));
                }
            }
        }
    }

    /// The program; one that isn't there is a failure.
    fn found(&mut self, program: Result<Program, String>) -> Option<Program> {
        if let Err(said) = &program {
            println!("{said}");
            self.failed += 1;
        }
        program.ok()
    }

    /// Runs the program on each.
    fn runs(&mut self, found: Result<Program, String>, inputs: Vec<Vec<u8>>) {
        let Some(program) = self.found(found) else { return };
        for (place, input) in inputs.into_iter().enumerate() {
            // Now and then the input comes in pieces, as a pipe may give it.
            let pieces = if place % 8 == 0 { 3 } else { 1 };
            let case = Case::plain(input);
            if self.failed < MOST_FAILURES {
                self.check(&case, &|case| program.difference(&case.input, pieces));
            }
        }
    }

    fn check(&mut self, case: &Case, differs: Differs) {
        match differs(case) {
            None => self.passed += 1,
            Some(_) => self.fail(case, differs),
        }
    }

    fn fail(&mut self, case: &Case, differs: Differs) {
        self.failed += 1;
        println!("failed after {} that passed", self.passed);
        let small = shrink(case, &|candidate| differs(candidate).is_some());
        show(&small, differs);
    }
}

fn kept_and_fixed() -> Vec<Vec<u8>> {
    let kept = regressions::kept().expect("the kept cases can be read");
    let mut inputs: Vec<Vec<u8>> = kept.into_iter().map(|(_, case)| case.input).collect();
    inputs.extend(fixed::recordings());
    inputs
}

fn swaps_differ(case: &Case) -> Option<String> {
    match outcome(&case.input) {
        Outcome::Differs(said) => Some(said),
        _ => None,
    }
}

/// Prints a failing case in words and keeps it.
fn show(case: &Case, differs: Differs) {
    println!("output {} bytes, work area {} numbers", case.out_length, case.work_length);
    for record in case.input.chunks(8) {
        println!("  {}", words_of_bytes(record));
    }
    println!("{}", differs(case).unwrap_or_else(|| "it fails now and then".to_string()));
    match regressions::keep(case) {
        Ok(name) => println!("kept as compare/regressions/{name}"),
        Err(error) => println!("it could not be kept: {error}"),
    }
}
