//! The counts of the sections that a payload has exactly once, and the headers of those and of type 4 sections.

use super::kinds::Kind;
use super::limits::RECORDS;
use super::refusal::Refusal;
use super::sections::Section;

/// The sections that stand once in a payload, by index.
pub struct Single {
    pub symbols: usize,
    pub functions: usize,
    pub dependency: usize,
    pub build_id: usize,
}

pub fn count(sections: &[Section]) -> Result<Single, Refusal> {
    let symbols = only(sections, |kind| kind == Kind::Symbols)?;
    let table = &sections[symbols];
    let linked = sections.get(table.link as usize);
    let names = linked.map(|strings| strings.kind);
    if table.entry_size != 24 || table.size % 24 != 0 || names != Some(Kind::Strings) {
        return Err(Refusal::section(22, symbols));
    }
    let functions = only(sections, |kind| kind == Kind::Functions)?;
    let dependency = only(sections, |kind| matches!(kind, Kind::Dependency { .. }))?;
    let build_id = only(sections, |kind| matches!(kind, Kind::BuildId { .. }))?;
    let size = sections[functions].size;
    if size % 64 != 0 || !(1..=RECORDS as u64).contains(&(size / 64)) {
        return Err(Refusal::section(22, functions));
    }
    Ok(Single { symbols, functions, dependency, build_id })
}

/// The index of the one section of a kind.
fn only(sections: &[Section], wanted: impl Fn(Kind) -> bool) -> Result<usize, Refusal> {
    let mut found = sections.iter().filter(|section| wanted(section.kind));
    match (found.next(), found.next()) {
        (Some(section), None) => Ok(section.index),
        _ => Err(Refusal::nowhere(22)),
    }
}

/// A type 4 section and what it relocates.
#[derive(Debug)]
pub struct Relocated {
    pub section: usize,
    pub target: usize,
}

/// The type 4 sections whose entries count: all but those of ignored sections. Every header is checked.
pub fn relocated(sections: &[Section], symbols: usize) -> Result<Vec<Relocated>, Refusal> {
    let mut found = Vec::new();
    for section in sections.iter().filter(|section| section.kind == Kind::Relocations) {
        let broken = Refusal::section(22, section.index);
        if section.link != symbols as u64 || section.entry_size != 24 || section.size % 24 != 0 {
            return Err(broken);
        }
        let target = sections.get(section.info as usize).ok_or(broken)?;
        if target.kind.is_placed() && !target.kind.is_note() && target.section_type != 8 {
            found.push(Relocated { section: section.index, target: target.index });
        } else if target.kind != Kind::Ignored {
            return Err(broken);
        }
    }
    Ok(found)
}
