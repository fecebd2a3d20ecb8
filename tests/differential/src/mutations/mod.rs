//! Named changes of a valid payload, each with the answer that document 01 gives it: a number and a place, or what an
//! accepted payload leaves in the buffers. The answers are written down here, not computed by a loader.
//!
//! The ids are those of the rules: SYM the symbol list, HDR the header, SEC sections, KND kinds, CNT counts, T4H type
//! 4 headers, NOTE notes, PLC placement, REL relocations, SMB symbols, REC records, EDT edits, PAIR pairs, ARG the
//! other arguments, K the paper's numbers.

mod arguments;
mod counts;
mod edits;
mod header;
mod kinds;
mod known;
mod notes;
mod placement;
mod record_names;
mod records;
mod relocation_headers;
mod relocations;
mod sections;
mod symbol_list;
mod symbols;
mod weak_symbols;

use crate::payloads::assemble::input;
use crate::payloads::template::template;
use crate::payloads::{Draft, Input};
use crate::stated::Stated;
use std::panic::{catch_unwind, AssertUnwindSafe};

/// A place by the role of its section.
#[derive(Clone, Copy, Debug)]
pub enum Spot {
    Nowhere,
    Section(&'static str),
    Entry(&'static str, u64),
    Record(u64),
}

/// What an accepted payload leaves in the buffers.
#[derive(Clone, Debug)]
pub enum Fact {
    /// So many placed bytes.
    Placed(u32),
    /// So many edits, and zeros in the entries after them.
    Edits(usize),
    /// One edit: its index, address and bytes.
    Edit(usize, u64, Vec<u8>),
    /// Bytes of the image from an offset on.
    Image(u64, Vec<u8>),
    /// Bytes of a placed section from an offset in it on.
    InSection(&'static str, u64, Vec<u8>),
    /// The image is zero from an offset on.
    ZeroFrom(u64),
    BuildId(Vec<u8>),
    Dependency(Vec<u8>),
}

#[derive(Clone, Debug)]
pub enum Expect {
    /// Accepted by every call.
    Accepted,
    /// Accepted as far as the file alone decides; nothing is said of the rest.
    FileAccepted,
    Refused(u64, Spot),
    /// Accepted, with these facts.
    Holds(Vec<Fact>),
}

/// The call whose rule a row is about.
#[derive(Clone, Copy, PartialEq, Eq, Debug)]
pub enum Call {
    Symbols,
    File,
    Prepare,
}

pub struct Row {
    pub id: &'static str,
    pub name: String,
    pub call: Call,
    pub expect: Expect,
    /// How many variants of the template it is tried on.
    pub variants: u64,
    change: Box<dyn Fn(&mut Draft)>,
}

#[derive(Default)]
pub struct Table {
    pub rows: Vec<Row>,
}

impl Table {
    fn add(&mut self, call: Call, id: &'static str, name: String, expect: Expect, change: Box<dyn Fn(&mut Draft)>) {
        self.rows.push(Row { id, name, call, expect, variants: 6, change });
    }

    /// A row about the symbol list.
    fn list(&mut self, id: &'static str, name: impl ToString, expect: Expect, change: impl Fn(&mut Draft) + 'static) {
        self.add(Call::Symbols, id, name.to_string(), expect, Box::new(change));
    }

    /// A row about what the file alone decides.
    fn file(&mut self, id: &'static str, name: impl ToString, expect: Expect, change: impl Fn(&mut Draft) + 'static) {
        self.add(Call::File, id, name.to_string(), expect, Box::new(change));
    }

    /// A row about what comes after, in a payload whose file alone has no fault.
    fn prepare(
        &mut self,
        id: &'static str,
        name: impl ToString,
        expect: Expect,
        change: impl Fn(&mut Draft) + 'static,
    ) {
        self.add(Call::Prepare, id, name.to_string(), expect, Box::new(change));
    }

    /// Tries the last row on one variant only.
    fn once(&mut self) {
        if let Some(row) = self.rows.last_mut() {
            row.variants = 1;
        }
    }
}

/// Refused with a number, in one section.
fn at(number: u64, role: &'static str) -> Expect {
    Expect::Refused(number, Spot::Section(role))
}

/// Refused with a number, nowhere.
fn nowhere(number: u64) -> Expect {
    Expect::Refused(number, Spot::Nowhere)
}

/// Refused with a number, at an entry of a type 4 section.
fn entry(number: u64, role: &'static str, entry: u64) -> Expect {
    Expect::Refused(number, Spot::Entry(role, entry))
}

/// Refused with a number, at a record.
fn record(number: u64, record: u64) -> Expect {
    Expect::Refused(number, Spot::Record(record))
}

/// Every row.
pub fn table() -> Table {
    let mut table = Table::default();
    symbol_list::rows(&mut table);
    header::rows(&mut table);
    sections::rows(&mut table);
    kinds::rows(&mut table);
    counts::rows(&mut table);
    relocation_headers::rows(&mut table);
    notes::rows(&mut table);
    placement::rows(&mut table);
    relocations::rows(&mut table);
    symbols::rows(&mut table);
    weak_symbols::rows(&mut table);
    record_names::rows(&mut table);
    records::rows(&mut table);
    edits::rows(&mut table);
    known::rows(&mut table);
    arguments::rows(&mut table);
    table
}

impl Row {
    /// The changed payload of one variant, and what is stated of it.
    pub fn trial(&self, variant: u64) -> (Input, Stated) {
        let mut draft = template(variant);
        (self.change)(&mut draft);
        (input(&draft), self.stated(&draft))
    }

    /// The payload with this row's change and then another's; nothing where the two don't go together. Nothing is stated
    /// of it: which fault comes first is for the two loaders to agree on.
    pub fn with(&self, other: &Row, variant: u64) -> Option<Input> {
        let make = || {
            let mut draft = template(variant);
            (self.change)(&mut draft);
            (other.change)(&mut draft);
            input(&draft)
        };
        catch_unwind(AssertUnwindSafe(make)).ok()
    }

    fn stated(&self, draft: &Draft) -> Stated {
        let mut stated = Stated::default();
        let code = match self.expect {
            Expect::Refused(number, spot) => number + place_code(draft, spot),
            _ => 0,
        };
        match self.call {
            Call::Symbols => {
                stated.symbols = Some(code);
                stated.prepare = (code != 0).then_some(code);
            }
            Call::File => {
                stated.symbols = Some(0);
                stated.file = Some(code);
                stated.prepare = (!matches!(self.expect, Expect::FileAccepted)).then_some(code);
            }
            Call::Prepare => {
                stated.symbols = Some(0);
                stated.file = Some(0);
                stated.prepare = Some(code);
            }
        }
        if let Expect::Holds(facts) = &self.expect {
            facts.iter().for_each(|fact| state(&mut stated, draft, fact));
        }
        stated
    }
}

/// The part of a code that says where: kind of place, first and second index.
fn place_code(draft: &Draft, spot: Spot) -> u64 {
    let (kind, first, second) = match spot {
        Spot::Nowhere => (0, 0, 0),
        Spot::Section(role) => (1, draft.index(role) as u64, 0),
        Spot::Entry(role, entry) => (2, draft.index(role) as u64, entry),
        Spot::Record(record) => (3, record, 0),
    };
    kind * 0x100 + first * 0x1_0000 + second * 0x1_0000_0000
}

fn state(stated: &mut Stated, draft: &Draft, fact: &Fact) {
    match fact {
        Fact::Placed(length) => stated.placed(*length),
        Fact::Edits(count) => stated.edit_count(*count),
        Fact::Edit(index, address, bytes) => stated.edit(*index, *address, bytes),
        Fact::Image(offset, bytes) => stated.bytes.push((0, *offset as usize, bytes.clone())),
        Fact::InSection(role, offset, bytes) => {
            stated.bytes.push((0, (draft.start(role) + offset) as usize, bytes.clone()));
        }
        Fact::ZeroFrom(offset) => stated.bytes.push((0, *offset as usize, vec![0; 8192 - *offset as usize])),
        Fact::BuildId(bytes) => stated.build_id(bytes),
        Fact::Dependency(bytes) => stated.dependency(bytes),
    }
}

#[cfg(test)]
mod tests {
    use super::*;
    use crate::alone::faults;

    #[test]
    fn the_second_loader_does_as_stated() {
        let mut failed = 0;
        for row in table().rows {
            for variant in 0..row.variants {
                let (input, stated) = row.trial(variant);
                for fault in faults(&input, &stated) {
                    println!("{} {} (variant {variant}): {fault}", row.id, row.name);
                    failed += 1;
                }
            }
        }
        assert_eq!(failed, 0);
    }

    #[test]
    fn names_are_unique() {
        let mut seen = std::collections::HashSet::new();
        for row in table().rows {
            assert!(seen.insert((row.id, row.name.clone())), "{} {} stands twice", row.id, row.name);
        }
    }
}
