//! Section headers and contents of an ELF file, as the tools wrote it.

use std::collections::BTreeMap;

pub const RELA: u64 = 4;
pub const NOBITS: u64 = 8;
pub const ALLOC: u64 = 2;
pub const MERGE: u64 = 0x10;

/// A section with its bytes; zeros where it has none in the file.
#[derive(Clone)]
pub struct Section {
    pub name: String,
    pub kind: u64,
    pub flags: u64,
    pub address: u64,
    pub align: u64,
    pub info: u64,
    pub bytes: Vec<u8>,
}

/// A little-endian number of some bytes.
pub fn get(bytes: &[u8], at: usize, count: usize) -> Result<u64, String> {
    let field = bytes.get(at..at.saturating_add(count)).ok_or("a file that ends too early")?;
    Ok(field.iter().rev().fold(0, |number, byte| number << 8 | u64::from(*byte)))
}

/// The next multiple of a step, or the number itself where it is one.
pub fn rounded_up(number: u64, step: u64) -> u64 {
    match number % step {
        0 => number,
        over => number + (step - over),
    }
}

/// All sections, by index.
pub fn sections(file: &[u8]) -> Result<Vec<Section>, String> {
    let (table, count) = (get(file, 40, 8)? as usize, get(file, 60, 2)? as usize);
    let names = table + 64 * get(file, 62, 2)? as usize;
    let strings = get(file, names + 24, 8)? as usize;
    (0..count).map(|index| section(file, table + 64 * index, strings)).collect()
}

fn section(file: &[u8], row: usize, strings: usize) -> Result<Section, String> {
    let name = file.get(strings + get(file, row, 4)? as usize..).ok_or("a name outside the file")?;
    let name = name.split(|byte| *byte == 0).next().unwrap_or_default();
    let (kind, offset, size) =
        (get(file, row + 4, 4)?, get(file, row + 24, 8)? as usize, get(file, row + 32, 8)? as usize);
    let bytes = match kind {
        NOBITS => vec![0; size],
        0 => Vec::new(),
        _ => file.get(offset..offset + size).ok_or("a section outside the file")?.to_vec(),
    };
    Ok(Section {
        name: String::from_utf8_lossy(name).into_owned(),
        kind,
        flags: get(file, row + 8, 8)?,
        address: get(file, row + 16, 8)?,
        align: get(file, row + 48, 8)?,
        info: get(file, row + 44, 4)?,
        bytes,
    })
}

/// How many relocations of each type the placed sections have.
pub fn relocation_types(sections: &[Section]) -> BTreeMap<u64, usize> {
    let mut types = BTreeMap::new();
    for table in sections.iter().filter(|section| section.kind == RELA) {
        let target = sections.get(table.info as usize);
        if target.map_or(false, |target| target.flags & ALLOC != 0) {
            for entry in table.bytes.chunks_exact(24) {
                *types.entry(get(entry, 8, 4).unwrap_or(0)).or_default() += 1;
            }
        }
    }
    types
}
