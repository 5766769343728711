//! Compares the proved checker with the reference: answer, whole output, whole work area.

mod case;
mod damage;
mod edges;
mod engines;
mod fixed;
mod graphviz;
mod histories;
mod library;
mod numbers;
mod options;
mod places;
mod program;
mod proposals;
mod recordings;
mod regressions;
mod run;
mod shapes;
mod shrink;
mod small;
mod swapped;
mod tally;
mod texts;
mod writing;

use std::process::ExitCode;

fn main() -> ExitCode {
    let options = match options::Options::read(std::env::args().skip(1)) {
        Ok(options) => options,
        Err(said) => {
            eprintln!("{said}");
            return ExitCode::from(2);
        }
    };
    let failed = run::run(&options);
    if failed == 0 {
        ExitCode::SUCCESS
    } else {
        ExitCode::FAILURE
    }
}
