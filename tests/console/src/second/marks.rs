//! What an input reached: answers by command, bad lines by kind, and turns of note; each with how often.

use super::command::Why;
use differential::second::{Place, Refusal};
use std::collections::BTreeMap;

#[derive(Default)]
pub struct Marks(pub BTreeMap<String, u64>);

impl Marks {
    pub fn add(&mut self, what: impl ToString) {
        *self.0.entry(what.to_string()).or_default() += 1;
    }

    /// An answer to a command: 0, or a refusal's code.
    pub fn answer(&mut self, command: &str, code: u64) {
        let what = match Refusal::of_code(code) {
            None if code == 0 => "accepted".to_string(),
            None => format!("{code:#x}"),
            Some(Refusal { number, place }) => format!("{number} {}", kind(place)),
        };
        self.add(format!("{command}: {what}"));
    }

    pub fn bad_line(&mut self, inside: bool, why: Why) {
        self.add(format!("bad line {}: {why:?}", if inside { "in a payload" } else { "outside" }));
    }

    pub fn merge(&mut self, other: &Marks) {
        for (what, times) in &other.0 {
            *self.0.entry(what.clone()).or_default() += times;
        }
    }
}

fn kind(place: Place) -> &'static str {
    match place {
        Place::Nowhere => "nowhere",
        Place::Section(_) => "section",
        Place::Relocation { .. } => "entry",
        Place::Record(_) => "record",
    }
}
