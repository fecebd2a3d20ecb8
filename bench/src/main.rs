//! Times the proved library and the second loader: preparing, lookups, the calls, jobs from their complete hold on, uploads
//! that grow.

mod calls;
mod case;
mod growth;
mod hold;
mod largest;
#[path = "../../tests/differential/src/abi.rs"]
mod library;
mod lookups;
mod pieces;
mod plan;
mod prepare;
mod scenes;
mod show;
mod timing;

use std::process::ExitCode;

/// What the words of the command ask for.
struct Wanted {
    rounds: usize,
    /// Whether the parts of preparing are timed too.
    parts: bool,
    /// Whether all is done once by both and nothing is timed.
    check: bool,
}

fn words() -> Result<Wanted, String> {
    let mut wanted = Wanted { rounds: 400, parts: false, check: false };
    let mut words = std::env::args().skip(1);
    while let Some(word) = words.next() {
        match word.as_str() {
            "--parts" => wanted.parts = true,
            "--check" => wanted.check = true,
            "--rounds" => {
                let number = words.next().and_then(|number| number.parse().ok()).filter(|number| *number >= 200);
                wanted.rounds = number.ok_or("--rounds takes a number from 200 on")?;
            }
            _ => return Err(format!("{word} is not known; there are --rounds N, --parts and --check")),
        }
    }
    Ok(wanted)
}

fn check() -> Result<(), String> {
    println!("{} payloads: both loaders prepare each alike", prepare::check()?);
    println!("{} lookups: the library and plain code find the same", lookups::check()?);
    println!("{} cases of calls: both loaders accept all, with the same answers and memory", calls::check()?);
    println!("{} cases from a complete hold: the same, and the bare writing leaves the same text", hold::check()?);
    println!("{} uploads that grow: the same", growth::check()?);
    Ok(())
}

fn run() -> Result<(), String> {
    let Wanted { rounds, parts, check: only_check } = words()?;
    if only_check {
        return check();
    }
    println!("{rounds} rounds of each in turn, after {} to warm up; both try each before it is timed", rounds / 4);
    let [clock] = timing::in_turn(rounds, [&mut || 0]);
    let [median, least] = [50, 0].map(|percent| clock.at(percent));
    println!("reading the clock is in every time: median {median:.2} us, least {least:.2} us");
    println!();
    prepare::show(rounds, parts)?;
    println!();
    lookups::show(rounds)?;
    println!();
    calls::show(rounds)?;
    println!();
    hold::show(rounds)?;
    println!();
    growth::show(rounds)
}

fn main() -> ExitCode {
    match run() {
        Ok(()) => ExitCode::SUCCESS,
        Err(words) => {
            eprintln!("bench: {words}");
            ExitCode::FAILURE
        }
    }
}
