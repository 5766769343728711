//! What is asked for on the command line.

const USAGE: &str =
    "usage: compare [--count N] [--seed S] [--swaps N] [--program N] [--why N] [--places N]
               [--text N] [--dot N] [--propose N] [--small N] [--fixed N]
  --count N     random recordings through the library (150000)
  --seed S      the seed of everything random (1)
  --swaps N     small recordings held against every trace that swaps reach (5000)
  --program N   random recordings through target/bin/judge (300); 0: the program is not run
  --why N       random violations, and as many recordings of any sort, through target/bin/why (400);
                0: the program is not run
  --places N    random violations, and as many recordings of any sort, asked by place through the
                library (300); 0: none is
  --text N      random recordings, and random texts, through target/bin/to_text and from_text (300);
                0: the programs are not run
  --dot N       random violations, and as many recordings of any sort, through target/bin/dot (100), and
                what it prints through Graphviz, if that is installed; 0: the program is not run
  --propose N   random recordings without marks, violations and recordings of any sort, so many each,
                through target/bin/propose (100); 0: the program is not run
  --small N     all small histories (1); 2, 3, ..: longer ones; 0: none
  --fixed N     the fixed recordings (1); 0: none";

pub struct Options {
    pub count: u64,
    pub seed: u64,
    pub swaps: u64,
    pub program: u64,
    pub why: u64,
    pub places: u64,
    pub text: u64,
    pub dot: u64,
    pub propose: u64,
    pub small: usize,
    pub fixed: u64,
}

impl Options {
    fn usual() -> Options {
        Options {
            count: 150_000,
            seed: 1,
            swaps: 5000,
            program: 300,
            why: 400,
            places: 300,
            text: 300,
            dot: 100,
            propose: 100,
            small: 1,
            fixed: 1,
        }
    }

    pub fn read(mut words: impl Iterator<Item = String>) -> Result<Options, String> {
        let mut options = Options::usual();
        while let Some(word) = words.next() {
            let number = words.next().and_then(|n| n.parse::<u64>().ok());
            let Some(number) = number else { return Err(USAGE.to_string()) };
            match word.as_str() {
                "--count" => options.count = number,
                "--seed" => options.seed = number,
                "--swaps" => options.swaps = number,
                "--program" => options.program = number,
                "--why" => options.why = number,
                "--places" => options.places = number,
                "--text" => options.text = number,
                "--dot" => options.dot = number,
                "--propose" => options.propose = number,
                "--small" => options.small = number as usize,
                "--fixed" => options.fixed = number,
                _ => return Err(USAGE.to_string()),
            }
        }
        Ok(options)
    }
}
