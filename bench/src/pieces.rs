//! What the bench's payloads are made of: symbol lists, and sections with runs of relocations.

use differential::payloads::draft::{Contents, Ref, Relocation, Section};
use differential::payloads::template::{note, record_bytes};
use differential::payloads::Record;
use differential::rng::Rng;
use std::collections::BTreeSet;

/// Where the text and the arena lie.
pub const TEXT_BASE: u64 = 0xffff_82d0_8020_0000;
pub const ARENA_BASE: u64 = 0xffff_82d0_8140_0000;

/// The entries of a symbol list.
pub type List = Vec<(Vec<u8>, u64)>;

const WORDS: [&str; 48] = [
    "alloc", "apic", "arch", "bitmap", "cache", "check", "context", "cpu", "default", "device", "domain", "enable",
    "event", "flush", "free", "frame", "get", "grant", "guest", "handler", "hvm", "init", "insert", "interrupt",
    "iommu", "irq", "lock", "map", "memory", "migrate", "msi", "page", "pci", "print", "queue", "region", "release",
    "remove", "sched", "set", "shadow", "state", "table", "timer", "trace", "update", "vcpu", "vmx",
];

/// So many different names of 10 to 40 bytes, in order.
fn names(count: usize) -> BTreeSet<Vec<u8>> {
    let mut rng = Rng::new(1);
    let mut names = BTreeSet::new();
    while names.len() < count {
        let words: Vec<&str> = (0..rng.between(2, 6)).map(|_| rng.pick(&WORDS)).collect();
        let name = words.join("_").into_bytes();
        if (10..=40).contains(&name.len()) {
            names.insert(name);
        }
    }
    names
}

/// So many names, with addresses 4,096 bytes apart in 4,000 pages of text, in another order than the names.
pub fn listed(count: usize) -> List {
    let address = |at: usize| TEXT_BASE + 4096 * (at as u64 * 1237 % 4000);
    names(count).into_iter().enumerate().map(|(at, name)| (name, address(at))).collect()
}

/// So many entries of a list, spread evenly over it.
pub fn spread(list: &[(Vec<u8>, u64)], count: usize) -> List {
    (0..count).map(|at| list[(2 * at + 1) * list.len() / (2 * count)].clone()).collect()
}

/// The types of a run's entries, in turn: code mostly calls, data mostly points.
pub const TYPES: [&[u32]; 2] = [&[4, 4, 2, 4, 1], &[1, 1, 2, 1, 4]];

/// The entries of a run, field after field, and how many bytes the fields have. They use so many symbols in turn; `first`
/// entries stand in earlier runs.
pub fn run(types: &[u32], count: usize, first: usize, symbols: usize) -> (Vec<Relocation>, u64) {
    let mut end = 0;
    let mut entries = Vec::new();
    for at in 0..count {
        let kind = types[at % types.len()];
        let addend = if kind == 1 { 8 } else { -4i64 as u64 };
        entries.push(Relocation { offset: end, kind, symbol: ((first + at) % symbols) as u32 + 1, addend });
        end += if kind == 1 { 8 } else { 4 };
    }
    (entries, end)
}

/// Role, name and flags of a section that a run relocates, and the role and name of its relocation section.
pub type Target = (&'static str, &'static str, u64, &'static str, &'static str);

/// Sections of so many bytes at least, and their relocation sections, each with the run of its number.
pub fn targets(targets: &[Target], least: usize, run_of: impl Fn(usize) -> (Vec<Relocation>, u64)) -> Vec<Section> {
    let mut sections = Vec::new();
    for (number, (role, name, flags, rela_role, rela_name)) in targets.iter().enumerate() {
        let (entries, size) = run_of(number);
        sections.push(aligned(16, bytes(role, name, 1, *flags, vec![0xcc; least.max(size as usize)])));
        sections.push(Section::relocations(rela_role, rela_name.as_bytes(), Ref::To(role), entries));
    }
    sections
}

pub fn bytes(role: &'static str, name: &str, kind: u32, flags: u64, bytes: Vec<u8>) -> Section {
    Section::new(role, name.as_bytes(), kind, flags, Contents::Bytes(bytes))
}

pub fn aligned(align: u64, section: Section) -> Section {
    Section { align, ..section }
}

/// The first section of every file.
pub fn zero() -> Section {
    Section::new("zero", b"", 0, 0, Contents::Nothing(0))
}

pub fn functions(records: &[Record]) -> Section {
    aligned(8, bytes("funcs", ".livepatch.funcs", 1, 3, record_bytes(records)))
}

/// The notes with the ids, the symbol table and the names.
pub fn tables(id: &[u8], dependency: &[u8]) -> [Section; 5] {
    let symbol_table = Section::new("symtab", b".symtab", 2, 0, Contents::Symbols);
    [
        aligned(4, bytes("depends", ".livepatch.depends", 7, 2, note(dependency))),
        aligned(4, bytes("build_id", ".note.gnu.build-id", 7, 2, note(id))),
        Section { link: Ref::To("strtab"), align: 8, entry_size: 24, ..symbol_table },
        Section::new("strtab", b".strtab", 3, 0, Contents::SymbolNames),
        Section::new("shstrtab", b".shstrtab", 3, 0, Contents::SectionNames),
    ]
}
