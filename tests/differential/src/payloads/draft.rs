//! The description of a payload, its symbol list and its surroundings, before they are bytes.

use super::assemble::{Assembled, Field};
use crate::second::bytes::rounded_up;
use std::rc::Rc;

/// A section index: a number, or that of the section with a role.
#[derive(Clone, Copy, Debug)]
pub enum Ref {
    Number(u32),
    To(&'static str),
}

#[derive(Clone, Debug)]
pub enum Contents {
    /// Bytes with a place of their own in the file.
    Bytes(Vec<u8>),
    /// So many bytes of the file, from a place that other things have too (chosen by the second number).
    Shared(u64, u64),
    /// No bytes in the file, but a size (types 0 and 8).
    Nothing(u64),
    Relocations(Vec<Relocation>),
    Symbols,
    SymbolNames,
    /// The section names; the symbol names too where no section has `SymbolNames`.
    SectionNames,
}

#[derive(Clone, Debug)]
pub struct Section {
    pub role: &'static str,
    pub name: Vec<u8>,
    pub kind: u32,
    pub flags: u64,
    pub addr: u64,
    pub contents: Contents,
    pub link: Ref,
    pub info: Ref,
    pub align: u64,
    pub entry_size: u64,
}

impl Section {
    pub fn new(role: &'static str, name: &[u8], kind: u32, flags: u64, contents: Contents) -> Section {
        let (link, info) = (Ref::Number(0), Ref::Number(0));
        Section { role, name: name.to_vec(), kind, flags, addr: 0, contents, link, info, align: 1, entry_size: 0 }
    }

    /// A type 4 section.
    pub fn relocations(role: &'static str, name: &[u8], target: Ref, entries: Vec<Relocation>) -> Section {
        let section = Section::new(role, name, 4, 0x40, Contents::Relocations(entries));
        Section { link: Ref::To("symtab"), info: target, align: 8, entry_size: 24, ..section }
    }

    /// The size that the section says it has, where the draft alone tells it.
    pub fn size(&self) -> u64 {
        match &self.contents {
            Contents::Bytes(bytes) => bytes.len() as u64,
            Contents::Shared(size, _) | Contents::Nothing(size) => *size,
            Contents::Relocations(entries) => 24 * entries.len() as u64,
            Contents::Symbols | Contents::SymbolNames | Contents::SectionNames => 0,
        }
    }

    pub fn is_placed(&self) -> bool {
        self.flags & 2 != 0 && matches!(self.kind, 1 | 7 | 8)
    }
}

#[derive(Clone, Debug)]
pub struct Symbol {
    pub name: Vec<u8>,
    /// Where the name stands in its table, if not where `name` does.
    pub name_at: Option<u32>,
    pub info: u8,
    pub other: u8,
    pub home: Ref,
    pub value: u64,
    pub size: u64,
}

impl Symbol {
    pub fn new(name: &[u8], home: Ref, value: u64) -> Symbol {
        Symbol { name: name.to_vec(), name_at: None, info: 0x10, other: 0, home, value, size: 0 }
    }
}

#[derive(Clone, Copy, Debug, Default)]
pub struct Relocation {
    pub offset: u64,
    pub kind: u32,
    pub symbol: u32,
    pub addend: u64,
}

/// A function record's 64 bytes by field.
#[derive(Clone, Copy, Debug)]
pub struct Record {
    pub name: u64,
    pub new_addr: u64,
    pub old_addr: u64,
    pub new_size: u32,
    pub old_size: u32,
    pub version: u8,
    pub opaque: [u8; 31],
}

impl Record {
    pub fn new(new_addr: u64, old_addr: u64, new_size: u32, old_size: u32) -> Record {
        Record { name: 0, new_addr, old_addr, new_size, old_size, version: 1, opaque: [0; 31] }
    }

    pub fn bytes(&self) -> Vec<u8> {
        let addresses = [self.name, self.new_addr, self.old_addr].map(u64::to_le_bytes).concat();
        let sizes = [self.new_size, self.old_size].map(u32::to_le_bytes).concat();
        [&addresses[..], &sizes, &[self.version], &self.opaque].concat()
    }
}

/// A change of the assembled bytes.
#[derive(Clone)]
pub enum Change {
    Header(Field, u64),
    Section(&'static str, Field, u64),
    Bytes(Rc<dyn Fn(&mut Assembled)>),
}

#[derive(Clone)]
pub struct Draft {
    /// By index; the first is section 0.
    pub sections: Vec<Section>,
    /// The symbol table, entry 0 included.
    pub symbols: Vec<Symbol>,
    /// Seed of the layout in the file: 0 is one after the other with the section table last, others mix and leave gaps.
    pub layout: u64,
    /// The symbol list's entries, and its bytes where they aren't those of the entries.
    pub list: Vec<(Vec<u8>, u64)>,
    pub list_bytes: Option<Vec<u8>>,
    pub text_base: u64,
    pub text_len: u64,
    pub slot_base: u64,
    pub buffers: [usize; 3],
    /// Changes of the assembled bytes, in order.
    pub changes: Vec<Change>,
}

impl Draft {
    pub fn index(&self, role: &str) -> usize {
        let found = self.sections.iter().position(|section| section.role == role);
        found.unwrap_or_else(|| panic!("no section has the role {role}"))
    }

    pub fn section(&mut self, role: &str) -> &mut Section {
        let index = self.index(role);
        &mut self.sections[index]
    }

    /// Adds a section after the others.
    pub fn add(&mut self, section: Section) {
        self.sections.push(section);
    }

    pub fn remove(&mut self, role: &str) {
        let index = self.index(role);
        self.sections.remove(index);
    }

    /// Sees that the first section has a lower index than the second.
    pub fn put_before(&mut self, first: &str, second: &str) {
        let (a, b) = (self.index(first), self.index(second));
        if a > b {
            self.sections.swap(a, b);
        }
    }

    /// Makes a section the first after section 0.
    pub fn put_first(&mut self, role: &str) {
        let index = self.index(role);
        let section = self.sections.remove(index);
        self.sections.insert(1, section);
    }

    /// Sets a field of the ELF header once it is bytes.
    pub fn header(&mut self, field: Field, value: u64) {
        self.changes.push(Change::Header(field, value));
    }

    /// Sets a field of a section header once it is bytes.
    pub fn set(&mut self, role: &'static str, field: Field, value: u64) {
        self.changes.push(Change::Section(role, field, value));
    }

    /// Changes the bytes once they are assembled.
    pub fn then(&mut self, change: impl Fn(&mut Assembled) + 'static) {
        self.changes.push(Change::Bytes(Rc::new(change)));
    }

    /// The bytes of a section that has bytes of its own.
    pub fn bytes(&mut self, role: &str) -> &mut Vec<u8> {
        match &mut self.section(role).contents {
            Contents::Bytes(bytes) => bytes,
            other => panic!("{role} has {other:?}"),
        }
    }

    pub fn relocations(&mut self, role: &str) -> &mut Vec<Relocation> {
        match &mut self.section(role).contents {
            Contents::Relocations(entries) => entries,
            other => panic!("{role} has {other:?}"),
        }
    }

    pub fn add_symbol(&mut self, symbol: Symbol) -> u32 {
        self.symbols.push(symbol);
        self.symbols.len() as u32 - 1
    }

    pub fn symbol(&mut self, name: &str) -> &mut Symbol {
        let found = self.symbols.iter_mut().find(|symbol| symbol.name == name.as_bytes());
        found.unwrap_or_else(|| panic!("no symbol is named {name}"))
    }

    /// Where each placed section begins in the slot, and where the placed bytes end.
    pub fn placement(&self) -> (Vec<Option<u64>>, u64) {
        let mut end = 0u64;
        let mut starts = Vec::new();
        for section in &self.sections {
            if !section.is_placed() {
                starts.push(None);
                continue;
            }
            let start = rounded_up(end, section.align.max(1));
            starts.push(Some(start));
            end = start.saturating_add(section.size());
        }
        (starts, end)
    }

    /// Where a placed section begins in the slot.
    pub fn start(&self, role: &str) -> u64 {
        self.placement().0[self.index(role)].unwrap_or_else(|| panic!("{role} is not placed"))
    }

    /// The address of a placed section.
    pub fn address(&self, role: &str) -> u64 {
        self.slot_base.wrapping_add(self.start(role))
    }
}
