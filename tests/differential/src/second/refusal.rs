//! Refusals: a number and a place.

use std::fmt;

/// Where a payload breaks a rule. All indices count from 0.
#[derive(Clone, Copy, PartialEq, Eq, Debug)]
pub enum Place {
    Nowhere,
    Section(usize),
    Relocation { section: usize, entry: usize },
    Record(usize),
}

/// The first broken rule, in document 01's order.
#[derive(Clone, Copy, PartialEq, Eq, Debug)]
pub struct Refusal {
    pub number: u64,
    pub place: Place,
}

impl Refusal {
    pub fn nowhere(number: u64) -> Refusal {
        Refusal { number, place: Place::Nowhere }
    }

    pub fn section(number: u64, index: usize) -> Refusal {
        Refusal { number, place: Place::Section(index) }
    }

    pub fn record(number: u64, index: usize) -> Refusal {
        Refusal { number, place: Place::Record(index) }
    }

    /// The one number that crosses the C boundary: number, kind of place, first and second index.
    pub fn code(&self) -> u64 {
        let (kind, first, second) = match self.place {
            Place::Nowhere => (0, 0, 0),
            Place::Section(index) => (1, index, 0),
            Place::Relocation { section, entry } => (2, section, entry),
            Place::Record(index) => (3, index, 0),
        };
        self.number | kind << 8 | (first as u64) << 16 | (second as u64) << 32
    }

    /// The refusal that a code stands for; `None` for 0 and for codes that no refusal has.
    pub fn of_code(code: u64) -> Option<Refusal> {
        let (first, second) = ((code >> 16 & 0xffff) as usize, (code >> 32) as usize);
        let place = match code >> 8 & 0xff {
            0 => Place::Nowhere,
            1 => Place::Section(first),
            2 => Place::Relocation { section: first, entry: second },
            3 => Place::Record(first),
            _ => return None,
        };
        let refusal = Refusal { number: code & 0xff, place };
        (refusal.number != 0 && refusal.code() == code).then_some(refusal)
    }
}

impl fmt::Display for Refusal {
    fn fmt(&self, f: &mut fmt::Formatter<'_>) -> fmt::Result {
        match self.place {
            Place::Nowhere => write!(f, "{} nowhere", self.number),
            Place::Section(index) => write!(f, "{} at section {index}", self.number),
            Place::Relocation { section, entry } => write!(f, "{} at section {section} entry {entry}", self.number),
            Place::Record(index) => write!(f, "{} at record {index}", self.number),
        }
    }
}

/// An answer in words: `accepted`, a refusal, or the bare number where it is neither.
pub fn in_words(code: u64) -> String {
    match (code, Refusal::of_code(code)) {
        (0, _) => "accepted".to_string(),
        (_, Some(refusal)) => refusal.to_string(),
        (_, None) => format!("no answer at all ({code:#x})"),
    }
}

#[cfg(test)]
mod tests {
    use super::*;

    #[test]
    fn codes_go_both_ways() {
        let relocation = Place::Relocation { section: 63, entry: 1365 };
        for place in [Place::Nowhere, Place::Section(0), Place::Section(63), relocation, Place::Record(31)] {
            let refusal = Refusal { number: 95, place };
            assert_eq!(Refusal::of_code(refusal.code()), Some(refusal));
        }
        assert_eq!(Refusal::section(22, 3).code(), 22 + 256 + 3 * 65536);
        assert_eq!(Refusal { number: 3, place: relocation }.code(), 3 + 512 + 63 * 65536 + 1365 * 4294967296);
    }

    #[test]
    fn other_numbers_are_no_refusal() {
        assert_eq!(in_words(0), "accepted");
        assert_eq!(in_words(0x116), "22 at section 0");
        assert_eq!(in_words(0x416), "no answer at all (0x416)");
        assert_eq!(in_words(0x1_0000_0016), "no answer at all (0x100000016)");
    }
}
