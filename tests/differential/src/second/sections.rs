//! The section table: e_shstrndx, then each section by index.

use super::bytes::{field, inside, name_at};
use super::header::Header;
use super::kinds::{kind_of, Kind};
use super::refusal::Refusal;

/// A section that has passed every check of its own.
#[derive(Clone, Copy, Debug)]
pub struct Section {
    pub index: usize,
    pub kind: Kind,
    pub section_type: u64,
    pub size: u64,
    pub link: u64,
    pub info: u64,
    pub alignment: u64,
    pub entry_size: u64,
    offset: u64,
}

impl Section {
    /// The section's bytes in the file: none for types 0 and 8, which have no contents there.
    pub fn contents<'f>(&self, file: &'f [u8]) -> &'f [u8] {
        match self.section_type {
            0 | 8 => &[],
            _ => &file[self.offset as usize..(self.offset + self.size) as usize],
        }
    }
}

/// Reads the whole table, in document 01's order of checks.
pub fn read_sections(file: &[u8], header: &Header) -> Result<Vec<Section>, Refusal> {
    let rows: Vec<&[u8]> = file[header.table..].chunks(64).take(header.count).collect();
    let names = section_names(file, &rows, header.names).ok_or(Refusal::nowhere(22))?;
    rows.iter().enumerate().map(|(index, row)| read_section(file, names, index, row)).collect()
}

/// The contents of the section that e_shstrndx names.
fn section_names<'f>(file: &'f [u8], rows: &[&[u8]], index: usize) -> Option<&'f [u8]> {
    let row = rows.get(index)?;
    let (offset, size) = (field(row, 24, 8), field(row, 32, 8));
    let fit = field(row, 4, 4) == 3 && inside(offset, size, file.len() as u64);
    fit.then(|| &file[offset as usize..(offset + size) as usize])
}

fn read_section(file: &[u8], names: &[u8], index: usize, row: &[u8]) -> Result<Section, Refusal> {
    let broken = |number| Refusal::section(number, index);
    let mut section = Section {
        index,
        kind: Kind::Null,
        section_type: field(row, 4, 4),
        offset: field(row, 24, 8),
        size: field(row, 32, 8),
        link: field(row, 40, 4),
        info: field(row, 44, 4),
        alignment: field(row, 48, 8),
        entry_size: field(row, 56, 8),
    };
    if section.section_type == 0 {
        return Ok(section);
    }
    if index == 0 {
        return Err(broken(22));
    }
    let name = name_at(names, field(row, 0, 4)).ok_or(broken(22))?;
    let flags = field(row, 8, 8);
    if ![1, 2, 3, 4, 7, 8].contains(&section.section_type) || flags & !0x77 != 0 {
        return Err(broken(95));
    }
    section.kind = kind_of(name, section.section_type, flags & 2 != 0).ok_or(broken(95))?;
    let aligned = section.alignment == 0 || (section.alignment.is_power_of_two() && section.alignment <= 4096);
    let in_file = section.section_type == 8 || inside(section.offset, section.size, file.len() as u64);
    if aligned && in_file {
        Ok(section)
    } else {
        Err(broken(22))
    }
}
