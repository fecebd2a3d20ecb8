//! The answers that the cases reached: every one that a payload can get has to be among them.

use crate::report::Report;
use differential::second::{Place, Refusal};
use std::collections::BTreeMap;

const PLACES: [&str; 4] = ["nowhere", "section", "entry", "record"];

/// The refusals that document 01 has for a payload by itself: the number, and the kinds of place that it has.
const REFUSALS: [(u64, &[&str]); 6] = [
    (3, &["entry", "record"]),
    (8, &["nowhere"]),
    (12, &["section"]),
    (22, &PLACES),
    (34, &["entry", "record"]),
    (95, &["section", "entry"]),
];

const ACCEPTED: (u64, &str) = (0, "accepted");

/// How often each answer was given, by number and kind of place.
#[derive(Default)]
pub struct Reached(BTreeMap<(u64, &'static str), u64>);

impl Reached {
    pub fn add(&mut self, code: u64) {
        let answer = match Refusal::of_code(code).map(|refusal| (refusal.number, refusal.place)) {
            None if code == 0 => ACCEPTED,
            None => (code, "no answer at all"),
            Some((number, Place::Nowhere)) => (number, "nowhere"),
            Some((number, Place::Section(_))) => (number, "section"),
            Some((number, Place::Relocation { .. })) => (number, "entry"),
            Some((number, Place::Record(_))) => (number, "record"),
        };
        *self.0.entry(answer).or_default() += 1;
    }

    fn times(&self, answer: (u64, &'static str)) -> u64 {
        self.0.get(&answer).copied().unwrap_or(0)
    }

    /// The answers and how often each was given, in one line.
    pub fn in_words(&self) -> String {
        self.0.iter().map(|(answer, times)| format!("{} {times}", words(*answer))).collect::<Vec<_>>().join(", ")
    }

    /// Prints how often each number was given at each kind of place; a `-` stands where no rule gives it.
    fn print_table(&self, cases: &str) {
        let [nowhere, section, entry, record] = PLACES;
        println!("answers to the payloads of {cases}:");
        println!("{:<9} {nowhere:>9} {section:>9} {entry:>9} {record:>9}", "");
        for (number, places) in REFUSALS {
            let cell = |place: &'static str| match places.contains(&place) {
                true => self.times((number, place)).to_string(),
                false => "-".to_string(),
            };
            let [nowhere, section, entry, record] = PLACES.map(cell);
            println!("{number:<9} {nowhere:>9} {section:>9} {entry:>9} {record:>9}");
        }
        println!("{:<9} {:>9}", ACCEPTED.1, self.times(ACCEPTED));
    }

    /// Fails where no case got an answer that a payload can get, or one got an answer that no rule gives.
    fn judge(&self, cases: &str, report: &mut Report) {
        let refusals = REFUSALS.iter().flat_map(|(number, places)| places.iter().map(move |place| (*number, *place)));
        let possible: Vec<(u64, &str)> = refusals.chain([ACCEPTED]).collect();
        let missing = possible.iter().filter(|answer| self.times(**answer) == 0);
        let unknown = self.0.keys().filter(|answer| !possible.contains(answer));
        let missing = missing.map(|answer| format!("none got: {}", words(*answer)));
        let faults: Vec<String> =
            missing.chain(unknown.map(|answer| format!("no rule gives: {}", words(*answer)))).collect();
        faults.iter().for_each(|fault| println!("answers to the payloads of {cases}: FAILED: {fault}"));
        report.count(0, faults.len() as u64);
    }
}

/// The rarest answer of the groups, 12, is one in a thousand. Fewer cases than these need not reach it.
const ENOUGH: u64 = 20_000;

/// Prints both tables. That every answer is reached is one test for each.
pub fn run(report: &mut Report) {
    let (named, generated) = (std::mem::take(&mut report.named), std::mem::take(&mut report.generated));
    named.print_table("rows and objects");
    named.judge("rows and objects", report);
    generated.print_table("groups");
    let cases: u64 = generated.0.values().sum();
    if cases < ENOUGH {
        report.skipped.push(format!("whether groups reach every answer ({cases} cases, and not {ENOUGH})"));
    } else {
        generated.judge("groups", report);
    }
}

fn words((number, place): (u64, &str)) -> String {
    match number {
        0 => place.to_string(),
        _ => format!("{number} {place}"),
    }
}
