//! The answers that calls got, by call and number: every one that document 01 has for a call has to be among them.

use super::call::NAMES;
use crate::second::Refusal;
use std::collections::BTreeMap;

/// The refusals that a call can give.
const REFUSALS: [(&str, &[u64]); 9] = [
    ("start", &[22]),
    ("upload", &[3, 8, 12, 17, 22, 34, 95]),
    ("get", &[2, 22]),
    ("list", &[7, 22]),
    ("action", &[2, 16, 22, 33]),
    ("report", &[22]),
    ("tick", &[22]),
    ("work", &[16, 22]),
    ("top_build_id", &[22]),
];

/// All numbers of refusals.
const NUMBERS: [u64; 11] = [2, 3, 7, 8, 12, 16, 17, 22, 33, 34, 95];

/// How often each call got each number; 0 is accepted.
#[derive(Clone, Default)]
pub struct Answers(BTreeMap<(&'static str, u64), u64>);

impl Answers {
    /// Counts an answer. A number that is no answer counts as itself.
    pub fn add(&mut self, call: &'static str, code: u64) {
        let number = Refusal::of_code(code).map_or(code, |refusal| refusal.number);
        *self.0.entry((call, number)).or_default() += 1;
    }

    pub fn join(&mut self, other: &Answers) {
        other.0.iter().for_each(|(answer, times)| *self.0.entry(*answer).or_default() += times);
    }

    pub fn calls(&self) -> u64 {
        self.0.values().sum()
    }

    fn times(&self, call: &'static str, number: u64) -> u64 {
        self.0.get(&(call, number)).copied().unwrap_or(0)
    }

    /// A line for each call: how often it got each number. A `-` stands where no rule gives it.
    pub fn table(&self) -> Vec<String> {
        let head = NUMBERS.iter().map(|number| format!(" {number:>7}")).collect::<String>();
        let mut lines = vec![format!("{:<12} {:>8}{head}", "", "accepted")];
        for (call, numbers) in REFUSALS {
            let cell = |number: &u64| match numbers.contains(number) {
                true => format!(" {:>7}", self.times(call, *number)),
                false => format!(" {:>7}", "-"),
            };
            let cells = NUMBERS.iter().map(cell).collect::<String>();
            lines.push(format!("{call:<12} {:>8}{cells}", self.times(call, 0)));
        }
        lines
    }

    /// The answers that no call got, and those that no rule gives.
    pub fn faults(&self) -> Vec<String> {
        let refusals = REFUSALS.iter().flat_map(|(call, numbers)| numbers.iter().map(move |number| (*call, *number)));
        let possible: Vec<(&str, u64)> = NAMES.into_iter().map(|call| (call, 0)).chain(refusals).collect();
        let missing = possible.iter().filter(|(call, number)| self.times(call, *number) == 0);
        let missing = missing.map(|answer| format!("none got: {}", words(*answer)));
        let unknown = self.0.keys().filter(|answer| !possible.contains(answer));
        missing.chain(unknown.map(|answer| format!("no rule gives: {}", words(*answer)))).collect()
    }
}

fn words((call, number): (&str, u64)) -> String {
    match number {
        0 => format!("{call} accepted"),
        _ => format!("{call} {number}"),
    }
}
