//! A fixed payload that has a section of every kind, a symbol of every kind and a record of every kind. The named
//! changes of `mutations` start from it.

use super::draft::{Contents, Draft, Record, Ref, Relocation, Section, Symbol};
use crate::rng::Rng;
use crate::second::limits::BUFFERS;

/// The bytes of a note section with this description.
pub fn note(description: &[u8]) -> Vec<u8> {
    let mut note = [4, description.len() as u32, 3].map(u32::to_le_bytes).concat();
    note.extend(b"GNU\0");
    note.extend(description);
    note.resize((note.len() + 3) / 4 * 4, 0);
    note
}

pub const TEXT_BASE: u64 = 0xffff_82d0_8010_0000;
pub const TEXT_LEN: u64 = 0x10_0000;
pub const SLOT_BASE: u64 = 0xffff_82d0_8040_4000;

/// Numbers of the template's symbols.
pub const HERE_TEXT: u32 = 1;
pub const ABSOLUTE: u32 = 2;
pub const PRINTK: u32 = 3;
pub const HERE_STRINGS: u32 = 5;
pub const HERE_BSS: u32 = 7;

/// The template; variants other than 0 have their sections and contents in other orders and other notes placed.
pub fn template(variant: u64) -> Draft {
    let mut draft = Draft {
        sections: sections(),
        symbols: symbols(),
        layout: 0,
        list: list(),
        list_bytes: None,
        text_base: TEXT_BASE,
        text_len: TEXT_LEN,
        slot_base: SLOT_BASE,
        buffers: BUFFERS,
        changes: Vec::new(),
    };
    if variant != 0 {
        let mut rng = Rng::new(variant);
        rng.shuffle(&mut draft.sections[1..]);
        draft.layout = rng.number();
        let (kind, placed) = (rng.pick(&[1, 7]), rng.pick(&[0, 2]));
        draft.section("depends").kind = kind;
        draft.section("depends").flags = placed;
        draft.section("build_id").flags = 2 - placed;
    }
    draft
}

fn bytes(role: &'static str, name: &str, kind: u32, flags: u64, bytes: &[u8]) -> Section {
    Section::new(role, name.as_bytes(), kind, flags, Contents::Bytes(bytes.to_vec()))
}

fn with(align: u64, section: Section) -> Section {
    Section { align, ..section }
}

fn sections() -> Vec<Section> {
    let placed = [
        Section::new("zero", b"", 0, 0, Contents::Nothing(0)),
        with(16, bytes("text", ".text", 1, 6, &[0xcc; 64])),
        Section::relocations("rela_text", b".rela.text", Ref::To("text"), text_relocations()),
        with(8, bytes("data", ".data", 1, 3, &[0x11; 24])),
        with(4, bytes("seven", ".rodata.seven", 7, 2, &[0x77; 12])),
        with(32, Section::new("bss", b".bss", 8, 3, Contents::Nothing(40))),
        bytes("strings", ".rodata.str1.1", 1, 0x32, b"xen_extra_version\0memcpy\0"),
        with(8, bytes("funcs", ".livepatch.funcs", 1, 3, &record_bytes(&records()))),
        Section::relocations("rela_funcs", b".rela.livepatch.funcs", Ref::To("funcs"), record_relocations()),
        with(4, bytes("depends", ".livepatch.depends", 7, 2, &note(&[0xd0; 20]))),
        with(4, bytes("build_id", ".note.gnu.build-id", 7, 0, &note(&[0xb1, 2, 3, 4, 5, 6, 7, 8, 9]))),
    ];
    let wild = Relocation { offset: 1 << 40, kind: 99, symbol: 0x00ff_ffff, addend: 7 };
    let tables = |role, name: &[u8], kind, contents| Section::new(role, name, kind, 0, contents);
    let rest = [
        bytes("comment", ".comment", 1, 0x30, b"made by hand\0"),
        bytes("stack", ".note.GNU-stack", 1, 0, b""),
        bytes("debug", ".debug_info", 1, 0, &[0xdb; 30]),
        Section::relocations("rela_debug", b".rela.debug_info", Ref::To("debug"), vec![wild, wild]),
        Section::new("gap", b"", 0, 0, Contents::Nothing(0)),
        tables("extra", b".extra", 3, Contents::Bytes(b"no names here".to_vec())),
        symbol_table(),
        tables("strtab", b".strtab", 3, Contents::SymbolNames),
        tables("shstrtab", b".shstrtab", 3, Contents::SectionNames),
    ];
    placed.into_iter().chain(rest).collect()
}

fn symbol_table() -> Section {
    let section = Section::new("symtab", b".symtab", 2, 0, Contents::Symbols);
    Section { link: Ref::To("strtab"), info: Ref::Number(6), align: 8, entry_size: 24, ..section }
}

fn symbols() -> Vec<Symbol> {
    let broken = Symbol { name_at: Some(u32::MAX), ..Symbol::new(b"broken", Ref::Number(0xff05), u64::MAX) };
    vec![
        Symbol { info: 0, ..Symbol::new(b"", Ref::Number(0), 0) },
        Symbol::new(b"here_text", Ref::To("text"), 0),
        Symbol::new(b"absolute", Ref::Number(0xfff1), TEXT_BASE + 0x2_0000),
        Symbol::new(b"printk", Ref::Number(0), 0),
        Symbol::new(b"memcpy", Ref::Number(0), 0),
        Symbol::new(b"here_strings", Ref::To("strings"), 0),
        broken,
        Symbol::new(b"here_bss", Ref::To("bss"), 4),
    ]
}

fn text_relocations() -> Vec<Relocation> {
    let entry = |offset, kind, symbol, addend| Relocation { offset, kind, symbol, addend };
    vec![
        entry(1, 4, PRINTK, -4i64 as u64),
        entry(8, 2, PRINTK + 1, -4i64 as u64),
        entry(16, 1, ABSOLUTE, 5),
        entry(u64::MAX, 0, u32::MAX, u64::MAX),
        entry(60, 2, HERE_BSS, 0),
        entry(24, 1, 0, 0x1234),
    ]
}

/// A jump of a named function, a fill, a jump at an address that a relocation stores.
fn records() -> Vec<Record> {
    let fill = Record { name: 0xdead_beef_0000_0000, ..Record::new(0, TEXT_BASE + 0x1_0000, 7, 20) };
    vec![Record::new(0, 0, 13, 13), fill, Record::new(0, 0, 16, 5)]
}

fn record_relocations() -> Vec<Relocation> {
    let entry = |offset, symbol, addend| Relocation { offset, kind: 1, symbol, addend };
    vec![entry(0, HERE_STRINGS, 0), entry(8, HERE_TEXT, 0), entry(136, HERE_TEXT, 32), entry(144, ABSOLUTE, 0)]
}

pub fn record_bytes(records: &[Record]) -> Vec<u8> {
    records.iter().flat_map(Record::bytes).collect()
}

fn list() -> Vec<(Vec<u8>, u64)> {
    let entries: [(&str, u64); 7] = [
        ("at_zero", 0),
        ("do_domctl", 0xffff_82d0_8010_4a6a),
        ("far_away", 0x1000),
        ("memcpy", TEXT_BASE + 0x3_0000),
        ("outside", TEXT_BASE + TEXT_LEN),
        ("printk", 0xffff_82d0_8015_fbb9),
        ("xen_extra_version", 0xffff_82d0_8013_963c),
    ];
    entries.iter().map(|(name, address)| (name.as_bytes().to_vec(), *address)).collect()
}

impl Draft {
    /// Gives the payload other records, whose fields no relocation changes.
    pub fn set_records(&mut self, records: &[Record]) {
        *self.bytes("funcs") = record_bytes(records);
        if self.sections.iter().any(|section| section.role == "rela_funcs") {
            self.relocations("rela_funcs").clear();
        }
    }

    /// Makes room for so many records, so that addresses in the slot are those that they will have.
    pub fn reserve_records(&mut self, count: u64) {
        let fill = |number| Record::new(0, self.text_base + 40 * number, 3, 9);
        let records: Vec<Record> = (0..count).map(fill).collect();
        self.set_records(&records);
    }

    /// Gives the text section other relocations.
    pub fn set_relocations(&mut self, entries: &[Relocation]) {
        *self.relocations("rela_text") = entries.to_vec();
    }

    /// Leaves one placed section, the records' with one fill of 64 bytes, and no symbol and no relocation.
    pub fn slim(&mut self) {
        let kept = ["zero", "funcs", "depends", "build_id", "symtab", "strtab", "shstrtab"];
        self.sections.retain(|section| kept.contains(&section.role));
        self.symbols.truncate(1);
        self.section("depends").flags = 0;
        self.section("build_id").flags = 0;
        self.section("funcs").align = 1;
        self.set_records(&[Record::new(0, self.text_base, 1, 1)]);
    }

    /// Adds a placed section of these bytes after the others.
    pub fn add_bytes(&mut self, role: &'static str, name: &str, align: u64, contents: &[u8]) {
        self.add(with(align, bytes(role, name, 1, 3, contents)));
    }

    /// Adds a placed section of type 8 after the others.
    pub fn add_zeros(&mut self, role: &'static str, align: u64, size: u64) {
        self.add(with(align, Section::new(role, b".bss.more", 8, 3, Contents::Nothing(size))));
    }
}

#[cfg(test)]
mod tests {
    use super::*;
    use crate::alone::faults;
    use crate::payloads::assemble::input;
    use crate::stated::Stated;

    #[test]
    fn every_variant_is_accepted() {
        for variant in 0..200 {
            let mut stated = Stated::accepted();
            stated.edit_count(3);
            assert_eq!(faults(&input(&template(variant)), &stated), Vec::<String>::new(), "variant {variant}");
        }
    }
}
