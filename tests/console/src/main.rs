//! Holds a console against the second one: stored scripts, scripts of exact sizes, random scripts; then, whether these reached
//! everything.
//!
//!   suite PROGRAM [--scripts N] [--seed S] [--jobs J] [--work FOLDER] [--stored FOLDER] [--script FILE ANSWERS]..
//!
//! N is the number of random scripts, S the seed that all of them come from, J how many run at a time. FOLDER of --work is where the
//! script of the first difference is kept, that of --stored has scripts NAME.in with their answers NAME.out. The last line is
//! `N passed, M failed`; the exit status is 0 where M is 0.

use console::report::Report;
use console::stored::{folder, Stored};
use console::{exact, groups, reached, stored};
use std::path::PathBuf;
use std::process::ExitCode;

const SCRIPTS: u64 = 3_000;
const SEED: u64 = 0x636f_6e73_6f6c_6531;

/// Fewer scripts need not reach everything.
const ENOUGH: u64 = 2_000;

struct Options {
    program: PathBuf,
    scripts: u64,
    seed: u64,
    jobs: usize,
    work: PathBuf,
    stored: Vec<Stored>,
}

fn number(text: &str) -> Result<u64, String> {
    let parsed = match text.strip_prefix("0x") {
        Some(hex) => u64::from_str_radix(hex, 16),
        None => text.parse(),
    };
    parsed.map_err(|_| format!("{text} is no number"))
}

fn options() -> Result<Options, String> {
    let mut words = std::env::args().skip(1);
    let program = PathBuf::from(words.next().ok_or("which program?")?);
    let work = std::env::temp_dir().join(format!("console-{}", std::process::id()));
    let mut options = Options { program, scripts: SCRIPTS, seed: SEED, jobs: 2, work, stored: Vec::new() };
    while let Some(word) = words.next() {
        let mut value = || words.next().ok_or(format!("{word} needs a value"));
        match word.as_str() {
            "--scripts" => options.scripts = number(&value()?)?,
            "--seed" => options.seed = number(&value()?)?,
            "--jobs" => options.jobs = number(&value()?)?.clamp(1, 64) as usize,
            "--work" => options.work = PathBuf::from(value()?),
            "--stored" => {
                let path = value()?;
                options.stored.extend(folder(path.as_ref()).map_err(|error| format!("{path}: {error}"))?);
            }
            "--script" => {
                let (script, answers) = (PathBuf::from(value()?), PathBuf::from(value()?));
                options.stored.push(Stored { script, answers });
            }
            _ => return Err(format!("unknown word {word}")),
        }
    }
    Ok(options)
}

fn main() -> ExitCode {
    let options = match options() {
        Ok(options) => options,
        Err(error) => {
            eprintln!("suite: {error}");
            return ExitCode::from(2);
        }
    };
    let mut report = Report::new(options.work.join("first-difference"));
    stored::run(&options.program, &options.stored, &mut report);
    exact::run(&options.program, &mut report);
    println!(
        "{} stored scripts; seed {:#018x}, {} random scripts",
        options.stored.len(),
        options.seed,
        options.scripts
    );
    let marks = groups::run(&options.program, options.seed, options.scripts, options.jobs, &mut report);
    if options.scripts >= ENOUGH {
        reached::judge(&marks, &mut report);
    } else {
        println!("skipped: whether scripts reach everything ({} scripts, and not {ENOUGH})", options.scripts);
    }
    match report.close() {
        true => ExitCode::SUCCESS,
        false => ExitCode::FAILURE,
    }
}
