//! Sequences of calls through both loaders: each written-down one counts as one test, and each group of random ones. Then, whether
//! they reached every answer and every deep state.

use crate::abi::{library, records_size};
use crate::report::Report;
use differential::rng::Rng;
use differential::sequences::driver::{Driver, Ground};
use differential::sequences::loader::second;
use differential::sequences::scripts;
use differential::sequences::session::Seen;
use std::io::Write;

/// Groups of random sequences, and sequences on one host and its payloads.
const GROUPS: u64 = 20;
const ON_ONE_GROUND: u64 = 50;

/// With fewer random sequences, not every answer and state is sure to be reached.
const ENOUGH: u64 = 10_000;

/// Runs all scripts, and so many random sequences in all, or a few more.
pub fn run(seed: u64, sequences: u64, report: &mut Report) {
    let size = records_size();
    println!("a records buffer of {size} bytes: {}", if size == 7_044 { "ok" } else { "FAILED" });
    report.count(1, u64::from(size != 7_044));
    let mut scripted = Seen::default();
    for script in scripts::all() {
        let session = script.run(&[library(), second()]);
        scripted.join(&session.seen);
        match &session.fault {
            None => println!("script {}: ok, {} calls", script.name, session.log.len()),
            Some(fault) => {
                println!("script {}: FAILED: {fault}", script.name);
                report.session(&format!("script {}", script.name), fault, &session);
            }
        }
        report.count(1, u64::from(session.fault.is_some()));
    }
    let mut seeds = Rng::new(seed);
    let mut random = Seen::default();
    for _ in 0..GROUPS {
        group(seeds.number(), (sequences + GROUPS - 1) / GROUPS, &mut random, report);
    }
    reached("scripts", &scripted, report);
    if sequences < ENOUGH {
        report.skipped.push(format!("whether random sequences reach all ({sequences} of them, and not {ENOUGH})"));
    } else {
        reached("random sequences", &random, report);
    }
}

fn group(seed: u64, count: u64, all: &mut Seen, report: &mut Report) {
    print!("random sequences, seed {seed:#018x}: ");
    let _ = std::io::stdout().flush();
    let mut rng = Rng::new(seed);
    let mut seen = Seen::default();
    let mut ground = Ground::new(&mut rng);
    let mut differences = 0;
    for number in 0..count {
        if number % ON_ONE_GROUND == 0 {
            ground = Ground::new(&mut rng);
        }
        let mut driver = Driver::new(&ground, &[library(), second()], rng.number());
        driver.run();
        seen.join(&driver.session.seen);
        if let Some(fault) = &driver.session.fault {
            let case = format!("random sequences, seed {seed:#018x}, sequence {number}");
            if differences == 0 {
                println!("sequence {number}, call {}: {fault}", driver.session.log.len());
                report.session(&case, fault, &driver.session);
            }
            differences += 1;
        }
    }
    let verdict = match (count, differences) {
        (0, _) => "FAILED, it ran none".to_string(),
        (_, 0) => "ok".to_string(),
        _ => format!("FAILED, {differences} differ"),
    };
    println!("{verdict}, {count} sequences, {} calls", seen.answers.calls());
    report.count(count, differences + u64::from(count == 0));
    all.join(&seen);
}

/// Prints what was reached. That all of it was is one test for the answers and one for the states.
fn reached(by: &str, seen: &Seen, report: &mut Report) {
    for (what, table, faults) in [
        ("answers to calls", seen.answers.table(), seen.answers.faults()),
        ("states and turns", seen.marks.table(), seen.marks.faults()),
    ] {
        println!("{what} in {by}:");
        table.iter().for_each(|line| println!("{line}"));
        faults.iter().for_each(|fault| println!("{what} in {by}: FAILED: {fault}"));
        report.count(0, faults.len() as u64);
    }
}
