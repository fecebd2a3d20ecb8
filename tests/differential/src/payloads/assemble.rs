//! From a draft to the bytes of the file and of the symbol list.

use super::draft::{Change, Contents, Draft, Ref, Relocation, Section, Symbol};
use super::Input;
use crate::rng::Rng;
use std::collections::HashMap;

/// A field of the ELF header or of a section header.
#[derive(Clone, Copy, Debug)]
pub struct Field {
    pub at: usize,
    pub width: usize,
}

const fn field(at: usize, width: usize) -> Field {
    Field { at, width }
}

/// Fields of a section header.
pub mod section_field {
    use super::{field, Field};
    pub const NAME: Field = field(0, 4);
    pub const TYPE: Field = field(4, 4);
    pub const FLAGS: Field = field(8, 8);
    pub const ADDR: Field = field(16, 8);
    pub const OFFSET: Field = field(24, 8);
    pub const SIZE: Field = field(32, 8);
    pub const LINK: Field = field(40, 4);
    pub const INFO: Field = field(44, 4);
    pub const ALIGN: Field = field(48, 8);
    pub const ENTRY_SIZE: Field = field(56, 8);
    pub const ALL: [Field; 10] = [NAME, TYPE, FLAGS, ADDR, OFFSET, SIZE, LINK, INFO, ALIGN, ENTRY_SIZE];
}

/// Fields of the ELF header.
pub mod header_field {
    use super::{field, Field};
    pub const CLASS: Field = field(4, 1);
    pub const DATA: Field = field(5, 1);
    pub const IDENT_VERSION: Field = field(6, 1);
    pub const TYPE: Field = field(16, 2);
    pub const MACHINE: Field = field(18, 2);
    pub const VERSION: Field = field(20, 4);
    pub const SECTION_TABLE: Field = field(40, 8);
    pub const SECTION_SIZE: Field = field(58, 2);
    pub const SECTION_COUNT: Field = field(60, 2);
    pub const NAMES: Field = field(62, 2);
    /// Fields that document 01 doesn't consult.
    pub const FREE: [Field; 9] = [
        field(7, 1),  // OSABI
        field(8, 1),  // ABI version
        field(9, 7),  // padding
        field(24, 8), // e_entry
        field(32, 8), // e_phoff
        field(48, 4), // e_flags
        field(52, 2), // e_ehsize
        field(54, 2), // e_phentsize
        field(56, 2), // e_phnum
    ];
    pub const ALL: [Field; 10] =
        [CLASS, DATA, IDENT_VERSION, TYPE, MACHINE, VERSION, SECTION_TABLE, SECTION_SIZE, SECTION_COUNT, NAMES];
}

/// The file's bytes and where things stand in them.
#[derive(Clone, Debug)]
pub struct Assembled {
    pub file: Vec<u8>,
    /// Where the section table begins.
    pub table: usize,
    pub roles: Vec<&'static str>,
    /// Offset and length of each section's contents.
    pub spans: Vec<(usize, usize)>,
}

impl Assembled {
    pub fn index(&self, role: &str) -> usize {
        let found = self.roles.iter().position(|other| *other == role);
        found.unwrap_or_else(|| panic!("no section has the role {role}"))
    }

    fn row(&self, role: &str, field: Field) -> usize {
        self.table + 64 * self.index(role) + field.at
    }

    pub fn get(&self, role: &str, field: Field) -> u64 {
        get(&self.file, self.row(role, field), field.width)
    }

    pub fn set(&mut self, role: &str, field: Field, value: u64) {
        let at = self.row(role, field);
        put(&mut self.file, at, field.width, value);
    }

    pub fn set_header(&mut self, field: Field, value: u64) {
        put(&mut self.file, field.at, field.width, value);
    }

    /// The contents of a section.
    pub fn contents(&mut self, role: &str) -> &mut [u8] {
        let (offset, len) = self.spans[self.index(role)];
        &mut self.file[offset..offset + len]
    }
}

pub fn put(bytes: &mut [u8], at: usize, width: usize, value: u64) {
    bytes[at..at + width].copy_from_slice(&value.to_le_bytes()[..width]);
}

pub fn get(bytes: &[u8], at: usize, width: usize) -> u64 {
    let mut eight = [0; 8];
    eight[..width].copy_from_slice(&bytes[at..at + width]);
    u64::from_le_bytes(eight)
}

/// A string table: each name once, one that ends another inside it.
fn string_table(names: &[&[u8]]) -> (Vec<u8>, Vec<u32>) {
    let mut longest_first: Vec<&[u8]> = names.to_vec();
    longest_first.sort_by_key(|name| std::cmp::Reverse(name.len()));
    let mut table = vec![0];
    let mut known: HashMap<&[u8], u32> = HashMap::from([(&b""[..], 0)]);
    for name in longest_first {
        if known.contains_key(name) {
            continue;
        }
        for from in 0..name.len() {
            known.entry(&name[from..]).or_insert((table.len() + from) as u32);
        }
        table.extend(name);
        table.push(0);
    }
    (table, names.iter().map(|name| known[name]).collect())
}

fn number(draft: &Draft, reference: Ref) -> u32 {
    match reference {
        Ref::Number(number) => number,
        Ref::To(role) => draft.index(role) as u32,
    }
}

fn symbol_bytes(draft: &Draft, symbol: &Symbol, name_at: u32) -> Vec<u8> {
    let mut bytes = vec![0; 24];
    put(&mut bytes, 0, 4, u64::from(symbol.name_at.unwrap_or(name_at)));
    put(&mut bytes, 4, 1, u64::from(symbol.info));
    put(&mut bytes, 5, 1, u64::from(symbol.other));
    put(&mut bytes, 6, 2, u64::from(number(draft, symbol.home)));
    put(&mut bytes, 8, 8, symbol.value);
    put(&mut bytes, 16, 8, symbol.size);
    bytes
}

fn relocation_bytes(entry: &Relocation) -> Vec<u8> {
    let info = u64::from(entry.symbol) << 32 | u64::from(entry.kind);
    [entry.offset, info, entry.addend].map(u64::to_le_bytes).concat()
}

/// The bytes of every section's contents, and where each section's name stands in the name table.
fn all_contents(draft: &Draft) -> (Vec<Vec<u8>>, Vec<u32>) {
    let section_names: Vec<&[u8]> = draft.sections.iter().map(|section| &section.name[..]).collect();
    let symbol_names: Vec<&[u8]> = draft.symbols.iter().map(|symbol| &symbol.name[..]).collect();
    let apart = draft.sections.iter().any(|section| matches!(section.contents, Contents::SymbolNames));
    let both = [&section_names[..], &symbol_names[..]].concat();
    let (names, mut places) = string_table(if apart { &section_names } else { &both });
    let of_symbols = places.split_off(section_names.len());
    let (strings, of_symbols) = if apart { string_table(&symbol_names) } else { (Vec::new(), of_symbols) };
    let bytes = |section: &Section| match &section.contents {
        Contents::Bytes(bytes) => bytes.clone(),
        Contents::Relocations(entries) => entries.iter().flat_map(relocation_bytes).collect(),
        Contents::Symbols => {
            draft.symbols.iter().zip(&of_symbols).flat_map(|(symbol, at)| symbol_bytes(draft, symbol, *at)).collect()
        }
        Contents::SymbolNames => strings.clone(),
        Contents::SectionNames => names.clone(),
        Contents::Shared(..) | Contents::Nothing(_) => Vec::new(),
    };
    (draft.sections.iter().map(bytes).collect(), places)
}

/// Puts the contents and the section table (the last part) into the file, and says where.
fn lay_out(parts: &[Vec<u8>], layout: u64) -> (Vec<u8>, Vec<usize>) {
    let mut rng = Rng::new(layout);
    let mut order: Vec<usize> = (0..parts.len()).collect();
    if layout != 0 {
        rng.shuffle(&mut order);
    }
    let gaps = if layout == 0 { 1 } else { rng.pick(&[1, 2, 8, 8, 16, 40]) };
    let mut file = vec![0; 64];
    let mut offsets = vec![0; parts.len()];
    for part in order {
        let gap = rng.index(gaps);
        file.extend(rng.bytes(gap));
        offsets[part] = file.len();
        file.extend(&parts[part]);
    }
    (file, offsets)
}

fn section_row(draft: &Draft, section: &Section, name_at: u32, offset: u64, size: u64) -> Vec<u8> {
    let mut row = Vec::new();
    row.extend(name_at.to_le_bytes());
    row.extend(section.kind.to_le_bytes());
    row.extend([section.flags, section.addr, offset, size].map(u64::to_le_bytes).concat());
    row.extend([section.link, section.info].map(|reference| number(draft, reference).to_le_bytes()).concat());
    row.extend([section.align, section.entry_size].map(u64::to_le_bytes).concat());
    row
}

fn write_header(file: &mut [u8], table: usize, draft: &Draft) {
    file[..7].copy_from_slice(&[0x7f, b'E', b'L', b'F', 2, 1, 1]);
    let fields = [(16, 2, 1), (18, 2, 62), (20, 4, 1), (52, 2, 64), (58, 2, 64)];
    for (at, width, value) in fields {
        put(file, at, width, value);
    }
    put(file, 40, 8, table as u64);
    put(file, 60, 2, draft.sections.len() as u64);
    let names = draft.sections.iter().position(|section| matches!(section.contents, Contents::SectionNames));
    put(file, 62, 2, names.unwrap_or(0) as u64);
}

/// Where a section's contents stand, and the size that it says it has.
fn span(section: &Section, own: usize, len: usize, file: u64) -> (u64, u64) {
    match section.contents {
        Contents::Shared(size, seed) => (seed % (file + 1 - size.min(file)), size),
        Contents::Nothing(size) => (own as u64, size),
        _ => (own as u64, len as u64),
    }
}

/// The file that a draft describes, its changes made.
pub fn assemble(draft: &Draft) -> Assembled {
    let (mut parts, places) = all_contents(draft);
    let count = draft.sections.len();
    parts.push(vec![0; 64 * count]);
    let (mut file, offsets) = lay_out(&parts, draft.layout);
    let table = offsets[count];
    write_header(&mut file, table, draft);
    let mut spans = Vec::new();
    for (index, section) in draft.sections.iter().enumerate() {
        let (offset, size) = span(section, offsets[index], parts[index].len(), file.len() as u64);
        let row = section_row(draft, section, places[index], offset, size);
        file[table + 64 * index..table + 64 * index + 64].copy_from_slice(&row);
        let kept = if matches!(section.contents, Contents::Nothing(_)) { 0 } else { size as usize };
        spans.push((offset as usize, kept));
    }
    let roles = draft.sections.iter().map(|section| section.role).collect();
    let mut assembled = Assembled { file, table, roles, spans };
    draft.changes.iter().for_each(|change| make(change, &mut assembled));
    assembled
}

fn make(change: &Change, assembled: &mut Assembled) {
    match change {
        Change::Header(field, value) => assembled.set_header(*field, *value),
        Change::Section(role, field, value) => assembled.set(role, *field, *value),
        Change::Bytes(change) => change(assembled),
    }
}

/// The bytes of a symbol list with these entries, in this order.
pub fn list_bytes(entries: &[(Vec<u8>, u64)]) -> Vec<u8> {
    let mut body = vec![1];
    body.extend((entries.len() as u16).to_be_bytes());
    for (name, address) in entries {
        body.extend(address.to_be_bytes());
        body.push(name.len() as u8);
        body.extend(name);
    }
    [&(body.len() as u32).to_be_bytes()[..], &body].concat()
}

/// All that a call gets for a draft.
pub fn input(draft: &Draft) -> Input {
    input_with(draft, assemble(draft).file)
}

/// All that a call gets for a draft, with other bytes for the file.
pub fn input_with(draft: &Draft, file: Vec<u8>) -> Input {
    Input {
        file,
        list: draft.list_bytes.clone().unwrap_or_else(|| list_bytes(&draft.list)),
        text_base: draft.text_base,
        text_len: draft.text_len,
        slot_base: draft.slot_base,
        buffers: draft.buffers,
    }
}
