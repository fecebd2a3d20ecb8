//! Answers as they are written.

use super::host::Entry;
use differential::second::{Place, Refusal};

/// `ok`, or the refusal of a code.
pub fn outcome(outcome: Result<(), u64>) -> Vec<u8> {
    match outcome {
        Ok(()) => b"ok\n".to_vec(),
        Err(code) => refusal(code),
    }
}

/// A refusal: its number, then the numbers of its place.
pub fn refusal(code: u64) -> Vec<u8> {
    let Refusal { number, place } = Refusal::of_code(code).unwrap_or_else(|| panic!("{code:#x} is no refusal"));
    let text = match place {
        Place::Nowhere => format!("no {number} 0\n"),
        Place::Section(index) | Place::Record(index) => format!("no {number} {index}\n"),
        Place::Relocation { section, entry } => format!("no {number} {section} {entry}\n"),
    };
    text.into_bytes()
}

pub fn status(status: u32) -> &'static str {
    match status {
        1 => "checked",
        2 => "applied",
        _ => panic!("{status} is no status"),
    }
}

/// What `get` found.
pub fn found((number, result): (u32, i32)) -> Vec<u8> {
    format!("{} {result}\n", status(number)).into_bytes()
}

/// The head line, and a line for each payload.
pub fn listed((version, entries): (u32, Vec<Entry>)) -> Vec<u8> {
    let mut text = format!("version {version} count {}\n", entries.len()).into_bytes();
    for entry in entries {
        text.extend(entry.name);
        text.extend(format!(" {} {}\n", status(entry.status), entry.result).into_bytes());
    }
    text
}

pub fn bad_line(number: u64) -> Vec<u8> {
    format!("bad line {number}\n").into_bytes()
}

#[cfg(test)]
mod tests {
    use super::*;

    #[test]
    fn refusals() {
        let written = |number, place| refusal(Refusal { number, place }.code());
        assert_eq!(written(2, Place::Nowhere), b"no 2 0\n");
        assert_eq!(written(95, Place::Section(63)), b"no 95 63\n");
        assert_eq!(written(34, Place::Relocation { section: 4, entry: 1_365 }), b"no 34 4 1365\n");
        assert_eq!(written(22, Place::Record(31)), b"no 22 31\n");
    }

    #[test]
    fn lists() {
        let entry = |name: &[u8], status, result| Entry { name: name.to_vec(), status, result };
        let list = (2, vec![entry(b"p1", 2, 0), entry(b"\x01", 1, -22)]);
        assert_eq!(listed(list), b"version 2 count 2\np1 applied 0\n\x01 checked -22\n");
        assert_eq!(listed((u32::MAX, Vec::new())), b"version 4294967295 count 0\n");
    }
}
