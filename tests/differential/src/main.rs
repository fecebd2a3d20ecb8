//! Compares the library with the second loader: the stack of a call, named rows, objects of the GNU tools, generated groups, lookups,
//! sequences of calls; then, whether these reached every answer.
//!
//!   differential [--cases N] [--sequences M] [--seed S] [--work FOLDER] [--verbose]
//!
//! N is the number of generated cases (also by the variable DIFFERENTIAL_CASES), M that of random sequences of calls (also by
//! the variable DIFFERENTIAL_SEQUENCES), S the seed that the groups' seeds come from, FOLDER where objects are made and the input of the first difference is kept. The last line is `N passed, M failed`; the exit
//! status is 0 where M is 0.

mod abi;
mod calls;
mod compare;
mod groups;
mod lookups;
mod reached;
mod report;
mod rows;
mod stack;
mod tools;

use std::path::PathBuf;
use std::process::ExitCode;

const CASES: u64 = 200_000;
const SEQUENCES: u64 = 40_000;
const SEED: u64 = 0x7572_6464_6f6c_7779;

struct Options {
    cases: u64,
    sequences: u64,
    seed: u64,
    work: PathBuf,
    verbose: bool,
}

fn number(text: &str) -> Result<u64, String> {
    let parsed = match text.strip_prefix("0x") {
        Some(hex) => u64::from_str_radix(hex, 16),
        None => text.parse(),
    };
    parsed.map_err(|_| format!("{text} is no number"))
}

fn options() -> Result<Options, String> {
    let set = |variable, own| std::env::var(variable).map_or(Ok(own), |text| number(&text));
    let (cases, sequences) = (set("DIFFERENTIAL_CASES", CASES)?, set("DIFFERENTIAL_SEQUENCES", SEQUENCES)?);
    let work = std::env::temp_dir().join(format!("differential-{}", std::process::id()));
    let mut options = Options { cases, sequences, seed: SEED, work, verbose: false };
    let mut words = std::env::args().skip(1);
    while let Some(word) = words.next() {
        let mut value = || words.next().ok_or(format!("{word} needs a value"));
        match word.as_str() {
            "--cases" => options.cases = number(&value()?)?,
            "--sequences" => options.sequences = number(&value()?)?,
            "--seed" => options.seed = number(&value()?)?,
            "--work" => options.work = PathBuf::from(value()?),
            "--verbose" => options.verbose = true,
            _ => return Err(format!("unknown word {word}")),
        }
    }
    Ok(options)
}

fn main() -> ExitCode {
    let options = match options() {
        Ok(options) => options,
        Err(error) => {
            eprintln!("differential: {error}");
            return ExitCode::from(2);
        }
    };
    // A panic of the second loader is reported as a difference; other panics are of changes that don't go together.
    std::panic::set_hook(Box::new(|_| ()));
    println!("seed {:#018x}, {} generated cases, {} random sequences", options.seed, options.cases, options.sequences);
    let mut report = report::Report::new(options.work.join("first-difference"));
    stack::run(&mut report);
    rows::run(options.verbose, &mut report);
    tools::run(&options.work.join("objects"), &mut report);
    groups::run(options.seed, options.cases, &mut report);
    lookups::run(options.seed, options.cases, &mut report);
    reached::run(&mut report);
    calls::run(options.seed, options.sequences, &mut report);
    match report.close() {
        true => ExitCode::SUCCESS,
        false => ExitCode::FAILURE,
    }
}
