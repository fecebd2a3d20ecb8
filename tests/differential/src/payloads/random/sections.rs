//! The sections of a random payload, in a random order.

use super::plan::Plan;
use crate::payloads::draft::{Contents, Draft, Ref, Section};
use crate::payloads::template::note;
use crate::rng::Rng;
use crate::second::limits::{ID, SECTIONS, SLOT};

/// The sections of a plan: contents of the records, symbols and relocations come later.
pub fn sections(plan: &Plan, rng: &mut Rng) -> Vec<Section> {
    let mut rest = needed(plan, rng);
    while rest.len() + 1 < plan.sections {
        rest.push(any(rng));
    }
    rest.truncate(SECTIONS - 1);
    rng.shuffle(&mut rest);
    rest.insert(0, Section::new("zero", b"", 0, 0, Contents::Nothing(0)));
    aim(&mut rest, rng);
    rest
}

/// What a payload must have, and what its plan needs.
fn needed(plan: &Plan, rng: &mut Rng) -> Vec<Section> {
    let funcs =
        Section::new("funcs", b".livepatch.funcs", 1, placed(rng), Contents::Bytes(vec![0; 64 * plan.records.len()]));
    let mut found = vec![
        Section { align: alignment(rng), ..funcs },
        note_section("depends", b".livepatch.depends", plan.notes.map(|[dependency, _]| dependency), rng),
        note_section("build_id", b".note.gnu.build-id", plan.notes.map(|[_, id]| id), rng),
        Section::new("shstrtab", b".shstrtab", 3, unplaced(rng), Contents::SectionNames),
    ];
    let mut table = Section::new("symtab", b".symtab", 2, unplaced(rng), Contents::Symbols);
    (table.link, table.entry_size, table.align) = (Ref::To("shstrtab"), 24, 8);
    if plan.sections > 6 && rng.one_in(2) {
        table.link = Ref::To("strtab");
        found.push(Section::new("strtab", b".strtab", 3, unplaced(rng), Contents::SymbolNames));
    }
    found.push(table);
    if plan.records.iter().any(|record| record.name.is_some()) {
        let name = plain_name(rng);
        found.push(Section {
            align: alignment(rng),
            ..Section::new("strings", &name, rng.pick(&[1, 7]), placed(rng), strings(plan, rng))
        });
    }
    for _ in 0..rng.pick(&[0, 1, 1, 1, 2]) {
        if found.len() + 1 < plan.sections {
            found.push(Section::relocations("rela_funcs", b".rela.livepatch.funcs", Ref::To("funcs"), Vec::new()));
        }
    }
    found
}

/// The names of the records that have one, in their order, each after some other bytes.
fn strings(plan: &Plan, rng: &mut Rng) -> Contents {
    let mut bytes = Vec::new();
    for name in plan.records.iter().filter_map(|record| record.name.as_ref()) {
        let before = rng.index(4);
        bytes.extend(rng.bytes(before));
        bytes.extend(name);
        bytes.push(0);
    }
    Contents::Bytes(bytes)
}

fn note_section(role: &'static str, name: &[u8], given: Option<u64>, rng: &mut Rng) -> Section {
    let len = given.unwrap_or_else(|| match rng.below(4) {
        0 => 20,
        1 => rng.pick(&[1, ID as u64 - 1, ID as u64]),
        _ => rng.between(1, ID as u64),
    });
    let mut id = rng.bytes(len as usize);
    if rng.one_in(6) {
        let last = id.len() - 1;
        id[last] = 0;
    }
    let flags = if rng.one_in(2) { placed(rng) } else { unplaced(rng) };
    Section { align: alignment(rng), ..Section::new(role, name, rng.pick(&[1, 7]), flags, Contents::Bytes(note(&id))) }
}

/// Flags of a placed section.
fn placed(rng: &mut Rng) -> u64 {
    let any = rng.number() & 0x75;
    2 | rng.pick(&[0, 1, 4, 5, 0x10, 0x30, 0x40, any])
}

/// Flags of another section.
fn unplaced(rng: &mut Rng) -> u64 {
    let any = rng.number() & 0x75;
    rng.pick(&[0, 0, 0, 0x30, 0x40, any])
}

fn alignment(rng: &mut Rng) -> u64 {
    match rng.below(40) {
        0 => 1 << rng.between(7, 12),
        1..=4 => 1 << rng.between(4, 6),
        _ => rng.pick(&[0, 1, 1, 1, 2, 4, 8]),
    }
}

fn suffix(rng: &mut Rng) -> Vec<u8> {
    let len = rng.between(1, 12) as usize;
    let high = rng.pick(&[b'z', b'z', 0xff]);
    (0..len).map(|_| rng.between(1, u64::from(high)) as u8).collect()
}

fn plain_name(rng: &mut Rng) -> Vec<u8> {
    let mut name = rng.pick(&[".text", ".rodata", ".data", ".bss"]).as_bytes().to_vec();
    if rng.one_in(2) {
        name.push(b'.');
        name.extend(suffix(rng));
    }
    name
}

fn size(rng: &mut Rng) -> usize {
    match rng.below(12) {
        0 => 0,
        1 => rng.index(2000),
        2..=5 => rng.index(200),
        _ => rng.index(40),
    }
}

/// Any section that a payload may have.
fn any(rng: &mut Rng) -> Section {
    let len = size(rng);
    let own = |rng: &mut Rng| {
        if rng.one_in(8) {
            Contents::Shared(len.min(300) as u64, rng.number())
        } else {
            Contents::Bytes(rng.bytes(len))
        }
    };
    let section = match rng.below(20) {
        0..=7 => Section::new("plain", &plain_name(rng), rng.pick(&[1, 1, 7]), placed(rng), own(rng)),
        8 | 9 => Section::new("eight", &plain_name(rng), 8, placed(rng), Contents::Nothing(len as u64)),
        10..=12 => Section::new("ignored", &ignored_name(rng), 1, unplaced(rng), own(rng)),
        13 | 14 => Section::new("null", &suffix(rng), 0, 0, Contents::Nothing(0)),
        15 => Section::new("extra", &suffix(rng), 3, unplaced(rng), own(rng)),
        16 | 17 => Section::relocations("rela_ignored", b".rela.debug", Ref::To("ignored"), Vec::new()),
        _ => Section::relocations("rela_plain", b".rela.text", Ref::To("plain"), Vec::new()),
    };
    if section.kind == 4 {
        section
    } else {
        Section { align: alignment(rng), ..section }
    }
}

fn ignored_name(rng: &mut Rng) -> Vec<u8> {
    match rng.below(4) {
        0 => b".comment".to_vec(),
        1 => b".note.GNU-stack".to_vec(),
        2 => b".debug_info".to_vec(),
        _ => [b".debug_".to_vec(), suffix(rng)].concat(),
    }
}

/// Gives type 4 sections their targets; without any, they become string tables.
fn aim(sections: &mut [Section], rng: &mut Rng) {
    let of = |role: &str| -> Vec<u32> {
        let found = sections.iter().enumerate().filter(|(_, section)| section.role == role);
        found.map(|(index, _)| index as u32).collect()
    };
    let (plain, ignored) = (of("plain"), of("ignored"));
    for section in sections.iter_mut().filter(|section| section.role.starts_with("rela_")) {
        let targets = match section.role {
            "rela_plain" => &plain,
            "rela_ignored" => &ignored,
            _ => continue,
        };
        if targets.is_empty() {
            *section = Section::new("extra", b".extra", 3, 0, Contents::Bytes(vec![1, 2, 3]));
            continue;
        }
        section.info = Ref::Number(rng.pick(targets));
        if section.role == "rela_ignored" {
            let count = rng.index(6);
            section.contents = Contents::Bytes(rng.bytes(24 * count));
        }
    }
}

/// Makes the placed bytes at most 8,192, sometimes exactly.
pub fn fit(draft: &mut Draft, rng: &mut Rng) {
    while draft.placement().1 > SLOT as u64 {
        let index = rng.index(draft.sections.len());
        let section = &mut draft.sections[index];
        if section.is_placed() && section.align > 16 {
            section.align = 16;
        } else if matches!(section.role, "plain" | "eight") {
            resize(section, section.size() / 2, rng);
        }
    }
    let last = draft.sections.iter().rposition(Section::is_placed);
    if let (Some(last), true) = (last, rng.one_in(10)) {
        let missing = SLOT as u64 - draft.placement().1;
        let section = &mut draft.sections[last];
        if section.role == "eight" || (section.role == "plain" && matches!(section.contents, Contents::Bytes(_))) {
            resize(section, section.size() + missing, rng);
        }
    }
}

fn resize(section: &mut Section, size: u64, rng: &mut Rng) {
    section.contents = match section.contents {
        Contents::Nothing(_) => Contents::Nothing(size),
        Contents::Shared(_, seed) => Contents::Shared(size.min(300), seed),
        _ => Contents::Bytes(rng.bytes(size as usize)),
    };
}
