//! Payloads of chosen sizes, for jobs and for what grows: all records are jumps, at addresses that no relocation stores.

use crate::pieces::{
    bytes, functions, listed, run, spread, tables, targets, zero, Target, ARENA_BASE, TEXT_BASE, TYPES,
};
use differential::payloads::assemble::input;
use differential::payloads::draft::{Draft, Record, Ref, Section, Symbol};
use differential::payloads::Input;
use differential::second::limits::{BUFFERS, ID, RECORDS, SLOT, SLOTS};

/// What a payload has.
#[derive(Clone, Copy)]
pub struct Plan {
    /// The slot that it is for. Its edits lie in a part of the text of their own.
    pub slot: usize,
    pub records: usize,
    /// A multiple of 4: four relocation sections have as many each.
    pub relocations: usize,
    /// Names in the symbol list; `LOOKED_UP` of them are used where there are relocations.
    pub names: usize,
    /// The length that the file is filled up to: a sixth of what is added is placed code, the rest is not placed.
    pub file: usize,
}

/// The least payload, with one edit.
pub const LEAST: Plan = Plan { slot: 0, records: 1, relocations: 0, names: 10, file: 0 };

/// The text that the edits of eight payloads lie in, and how far apart they are.
pub const TEXT_LEN: u64 = APART * (SLOTS * RECORDS) as u64;
const APART: u64 = 512;

/// The symbols that relocations use, every second of them undefined.
const SYMBOLS: usize = 20;
pub const LOOKED_UP: usize = SYMBOLS / 2;

/// The build-id of the hypervisor.
pub const BUILD_ID: [u8; ID] = [0xd0; ID];

const TARGETS: [Target; 4] = [
    ("cold", ".text.unlikely", 6, "rela_cold", ".rela.text.unlikely"),
    ("start", ".text.startup", 6, "rela_start", ".rela.text.startup"),
    ("exit", ".text.exit", 6, "rela_exit", ".rela.text.exit"),
    ("hot", ".text.hot", 6, "rela_hot", ".rela.text.hot"),
];

impl Plan {
    /// The id of a payload, by its slot.
    fn id(slot: usize) -> [u8; ID] {
        [slot as u8 + 1; ID]
    }

    /// What it depends on: the payload in the slot before; the first and the last depend on the hypervisor.
    fn dependency(&self) -> [u8; ID] {
        match self.slot {
            0 | 7 => BUILD_ID,
            slot => Plan::id(slot - 1),
        }
    }

    fn records(&self) -> Vec<Record> {
        let slot_base = ARENA_BASE + (SLOT * self.slot) as u64;
        let edit = |at: usize| TEXT_BASE + APART * (RECORDS * self.slot + at) as u64;
        (0..self.records).map(|at| Record::new(slot_base + 16 * at as u64, edit(at), 16, 64)).collect()
    }

    fn symbols(&self, used: &[(Vec<u8>, u64)]) -> Vec<Symbol> {
        let mut symbols = vec![Symbol { info: 0, ..Symbol::new(b"", Ref::Number(0), 0) }];
        for (name, _) in used {
            symbols.push(Symbol::new(b"", Ref::To("text"), 0));
            symbols.push(Symbol::new(name, Ref::Number(0), 0));
        }
        symbols
    }

    fn sections(&self) -> Vec<Section> {
        let mut sections = vec![zero(), bytes("text", ".text", 1, 6, vec![0xcc; 16 * self.records])];
        if self.relocations > 0 {
            let each = self.relocations / TARGETS.len();
            sections.extend(targets(&TARGETS, 0, |number| run(TYPES[0], each, number * each, SYMBOLS)));
        }
        sections.push(functions(&self.records()));
        sections.extend(tables(&Plan::id(self.slot), &self.dependency()));
        if self.file > 0 {
            sections.push(bytes("debug", ".debug_info", 1, 0, Vec::new()));
        }
        sections
    }

    /// The file and the symbol list.
    pub fn payload(&self) -> Input {
        let list = listed(self.names);
        let used = if self.relocations > 0 { spread(&list, LOOKED_UP) } else { Vec::new() };
        let mut draft = Draft {
            sections: self.sections(),
            symbols: self.symbols(&used),
            layout: 0,
            list,
            list_bytes: None,
            text_base: TEXT_BASE,
            text_len: TEXT_LEN,
            slot_base: ARENA_BASE,
            buffers: BUFFERS,
            changes: Vec::new(),
        };
        if self.file > 0 {
            let added = self.file - input(&draft).file.len();
            draft.bytes("text").resize(16 * self.records + added / 6, 0xcc);
            draft.bytes("debug").resize(added - added / 6, 0xdb);
        }
        input(&draft)
    }
}
