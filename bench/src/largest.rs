//! The largest payload: file, placed bytes, records and ids are as many as the rules allow.

use crate::pieces::{
    bytes, functions, listed, run, spread, tables, targets, zero, List, Target, ARENA_BASE, TEXT_BASE, TYPES,
};
use differential::payloads::assemble::input;
use differential::payloads::draft::{Draft, Record, Ref, Relocation, Section, Symbol};
use differential::payloads::Input;
use differential::rng::Rng;
use differential::second::limits::{BUFFERS, FILE, ID, RECORDS, SLOT};

/// What a payload that is prepared has.
#[derive(Clone, Copy)]
pub struct Shape {
    /// Names in the symbol list.
    pub names: usize,
    /// Entries of each of the six relocation sections that are not the records'.
    pub run: usize,
    /// Symbols that are looked up in the list, of the half that can be; the others are absolute, with the same values.
    pub undefined: usize,
}

pub const SYMBOLS: usize = 100;
/// Records whose function is given by name; those after them have an address.
pub const BY_NAME: usize = 16;
/// Records that ask for a jump; those after them ask for a fill.
const JUMPS: usize = 26;
/// The bytes of new code that a jump leads to.
const CODE_SIZE: usize = 16;

pub const LARGEST: Shape = Shape { names: 4_000, run: 93, undefined: SYMBOLS / 2 };

impl Shape {
    pub fn relocations(&self) -> usize {
        TARGETS.concat().len() * self.run + JUMPS + BY_NAME
    }
}

/// The length of the text that the payload changes.
pub const TEXT_LEN: u64 = 1 << 24;

const TARGETS: [[Target; 3]; 2] = [
    [
        ("text", ".text", 6, "rela_text", ".rela.text"),
        ("cold", ".text.unlikely", 6, "rela_cold", ".rela.text.unlikely"),
        ("start", ".text.startup", 6, "rela_start", ".rela.text.startup"),
    ],
    [
        ("data", ".data", 3, "rela_data", ".rela.data"),
        ("tables", ".data.rel.ro", 3, "rela_tables", ".rela.data.rel.ro"),
        ("constants", ".rodata", 2, "rela_constants", ".rela.rodata"),
    ],
];

/// Symbols with even numbers are undefined or absolute, the others defined. These two are the fronts of their sections.
const NAMES: u32 = 1;
const CODE: u32 = 3;

/// The entries that the payload looks up, by symbols, then by records.
fn used(list: &[(Vec<u8>, u64)]) -> List {
    let mut used = spread(list, SYMBOLS / 2 + BY_NAME);
    Rng::new(2).shuffle(&mut used);
    used
}

fn symbols(shape: &Shape, used: &[(Vec<u8>, u64)]) -> Vec<Symbol> {
    let homes = TARGETS.concat();
    let one = |number: usize| match number as u32 {
        0 => Symbol { info: 0, ..Symbol::new(b"", Ref::Number(0), 0) },
        NAMES => Symbol::new(b"", Ref::To("names"), 0),
        CODE => Symbol::new(b"", Ref::To("text"), 0),
        _ if number % 2 == 1 => Symbol::new(b"", Ref::To(homes[number / 2 % homes.len()].0), number as u64),
        _ => {
            let (name, address) = &used[number / 2 - 1];
            let (home, value) = if number / 2 <= shape.undefined { (0, 0) } else { (0xfff1, *address) };
            Symbol::new(name, Ref::Number(home), value)
        }
    };
    (0..=SYMBOLS).map(one).collect()
}

/// The records, their relocations, and the bytes of the names that they point to.
fn records(used: &[(Vec<u8>, u64)]) -> (Vec<Record>, Vec<Relocation>, Vec<u8>) {
    let (mut records, mut entries, mut names) = (Vec::new(), Vec::new(), Vec::new());
    for at in 0..RECORDS {
        let offset = 64 * at as u64;
        let mut record = Record::new(0, 0, CODE_SIZE as u32, 64);
        if at < BY_NAME {
            entries.push(Relocation { offset, kind: 1, symbol: NAMES, addend: names.len() as u64 });
            names.extend(&used[SYMBOLS / 2 + at].0);
            names.push(0);
        } else {
            // between two listed addresses
            record.old_addr = TEXT_BASE + 4096 * at as u64 + 2048;
        }
        if at < JUMPS {
            entries.push(Relocation { offset: offset + 8, kind: 1, symbol: CODE, addend: (CODE_SIZE * at) as u64 });
        }
        records.push(record);
    }
    (records, entries, names)
}

fn sections(shape: &Shape, used: &[(Vec<u8>, u64)]) -> Vec<Section> {
    let (records, record_entries, names) = records(used);
    let mut sections = vec![zero()];
    for at in 0..2 {
        let run_of = |number| run(TYPES[at], shape.run, (3 * at + number) * shape.run, SYMBOLS);
        // a size that also holds the code and the symbols where there are few entries
        sections.extend(targets(&TARGETS[at], CODE_SIZE * JUMPS, run_of));
    }
    sections.extend([
        bytes("names", ".rodata.str1.1", 1, 0x32, names),
        functions(&records),
        Section::relocations("rela_funcs", b".rela.livepatch.funcs", Ref::To("funcs"), record_entries),
    ]);
    sections.extend(tables(&[0xb1; ID], &[0xd0; ID]));
    sections.push(bytes("debug", ".debug_info", 1, 0, Vec::new()));
    sections
}

/// Fills the slot with code, and the file with bytes that are not placed.
fn fill(draft: &mut Draft) {
    let free = SLOT.saturating_sub(draft.placement().1 as usize);
    let text = draft.bytes("text");
    text.resize(text.len() + free, 0xcc);
    let free = FILE.saturating_sub(input(draft).file.len());
    draft.bytes("debug").resize(free, 0xdb);
    let filled = (draft.placement().1 as usize, input(draft).file.len());
    assert_eq!(filled, (SLOT, FILE), "the largest payload's slot and file are not filled");
}

/// All that a call gets for a payload of a shape. The file of the largest one has exactly `FILE` bytes.
pub fn payload(shape: &Shape) -> Input {
    let list = listed(LARGEST.names);
    let used = used(&list);
    let mut kept = list;
    if shape.names < kept.len() {
        kept.retain(|entry| used.contains(entry));
    }
    let mut draft = Draft {
        sections: sections(shape, &used),
        symbols: symbols(shape, &used),
        layout: 0,
        list: kept,
        list_bytes: None,
        text_base: TEXT_BASE,
        text_len: TEXT_LEN,
        slot_base: ARENA_BASE,
        buffers: BUFFERS,
        changes: Vec::new(),
    };
    if shape.run == LARGEST.run {
        fill(&mut draft);
    }
    input(&draft)
}
