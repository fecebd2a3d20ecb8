//! Random damage of valid payloads and symbol lists. Nothing is stated of the result: the two loaders must agree.

use crate::payloads::assemble::{get, header_field, put, section_field, Assembled, Field};
use crate::payloads::random::Made;
use crate::payloads::Input;
use crate::rng::Rng;
use crate::second::limits::{EDIT_TABLE, FILE, FILE_LEAST, NOTE, SLOT, SUMMARY};

/// What the damage aims at.
#[derive(Clone, Copy, PartialEq, Eq, Debug)]
pub enum Focus {
    Header,
    SectionTable,
    Names,
    Notes,
    Symbols,
    Relocations,
    Records,
    Anywhere,
    Length,
    Splice,
    SymbolList,
    Surroundings,
}

/// Numbers at which rules change their mind.
const SPECIAL: [u64; 49] = [
    0, 1, 2, 3, 4, 5, 6, 7, 8, 9, 10, 11, 16, 23, 24, 25, 31, 32, 33, 48, 62, 63, 64, 65, 80, 127, 128, 2048, 2112,
    4095, 4096, 4097, 8191, 8192, 8193, 32_768, 32_769, 0xff00, 0xfff1, 0xfff2, 0xffff, 0x7fff_ffff, 0x8000_0000,
    0xffff_ffff, 0x1_0000_0000, 0x8000_0000_0000_0000, 0xffff_ffff_ffff_fff8, 0xffff_ffff_ffff_fffc,
    0xffff_ffff_ffff_ffff,
];

/// Another number for a field.
fn other(old: u64, file: usize, sections: usize, rng: &mut Rng) -> u64 {
    match rng.below(8) {
        0 => old.wrapping_add(rng.between(1, 8)),
        1 => old.wrapping_sub(rng.between(1, 8)),
        2 | 3 => old ^ 1 << rng.below(64),
        4 => rng.pick(&SPECIAL),
        5 => (file as u64 + rng.below(3)).wrapping_sub(1),
        6 => rng.below(sections as u64 + 2),
        _ => rng.number() >> rng.below(64),
    }
}

/// A damaged copy of a valid payload; the other payload is for splices.
pub fn damage(made: &Made, spare: &Made, focus: Focus, rng: &mut Rng) -> Input {
    let mut input = made.input.clone();
    match focus {
        Focus::Length => length(&mut input.file, rng),
        Focus::Splice => splice(&mut input.file, &spare.input.file, rng),
        Focus::SymbolList => symbol_list(&mut input.list, rng),
        Focus::Surroundings => surroundings(&mut input, rng),
        _ => {
            for _ in 0..rng.pick(&[1, 1, 1, 2, 3, 8]) {
                once(made, focus, &mut input.file, rng);
            }
        }
    }
    input
}

fn once(made: &Made, focus: Focus, file: &mut [u8], rng: &mut Rng) {
    match focus {
        Focus::Header => {
            let byte = Field { at: rng.index(64), width: 1 };
            let field = if rng.one_in(8) { byte } else { rng.pick(&header_field::ALL) };
            change(made, file, field.at, field.width, rng);
        }
        Focus::SectionTable => {
            let field = rng.pick(&section_field::ALL);
            let row = rng.index(made.assembled.roles.len());
            change(made, file, made.assembled.table + 64 * row + field.at, field.width, rng);
        }
        Focus::Names => names(made, file, rng),
        Focus::Notes => fields(made, &["depends", "build_id"], NOTE, &NOTE_FIELDS, file, rng),
        Focus::Symbols => fields(made, &["symtab"], 24, &SYMBOL, file, rng),
        Focus::Relocations => {
            let roles = ["rela_funcs", "rela_plain", "rela_plain", "rela_ignored"];
            fields(made, &roles, 24, &RELOCATION, file, rng);
        }
        Focus::Records => fields(made, &["funcs", "funcs", "funcs", "strings"], 64, &RECORD, file, rng),
        _ => {
            let at = rng.index(file.len());
            file[at] = if rng.one_in(2) { rng.byte() } else { file[at] ^ 1 << rng.below(8) };
        }
    }
}

/// Offsets and widths of fields in contents.
const NOTE_FIELDS: [(usize, usize); 10] =
    [(0, 4), (4, 4), (8, 4), (12, 4), (16, 1), (20, 1), (33, 1), (35, 1), (NOTE - 3, 1), (NOTE - 1, 1)];
const SYMBOL: [(usize, usize); 7] = [(0, 4), (4, 1), (5, 1), (6, 2), (6, 2), (8, 8), (16, 8)];
const RELOCATION: [(usize, usize); 4] = [(0, 8), (8, 4), (12, 4), (16, 8)];
const RECORD: [(usize, usize); 8] = [(0, 8), (8, 8), (16, 8), (24, 4), (28, 4), (32, 1), (33, 1), (63, 1)];

/// Changes the field at an offset of the file.
fn change(made: &Made, file: &mut [u8], at: usize, width: usize, rng: &mut Rng) {
    if at + width <= file.len() {
        let value = other(get(file, at, width.min(8)), file.len(), made.assembled.roles.len(), rng);
        put(file, at, width, value);
    }
}

/// Changes a field of an entry of a section with one of these roles.
fn fields(made: &Made, roles: &[&str], step: usize, places: &[(usize, usize)], file: &mut [u8], rng: &mut Rng) {
    let role = rng.pick(roles);
    let indices = 0..made.assembled.roles.len();
    let found: Vec<usize> = indices.filter(|index| made.assembled.roles[*index] == role).collect();
    if found.is_empty() {
        return;
    }
    let (offset, len) = made.assembled.spans[rng.pick(&found)];
    let (at, width) = rng.pick(places);
    let entry = rng.index((len / step).max(1));
    if entry * step + at + width <= len {
        change(made, file, offset + entry * step + at, width, rng);
    }
}

/// Changes a byte of the names, or which one is a section's.
fn names(made: &Made, file: &mut [u8], rng: &mut Rng) {
    if rng.one_in(2) {
        let row = rng.index(made.assembled.roles.len());
        let other_row = rng.index(made.assembled.roles.len());
        let name = get(file, made.assembled.table + 64 * other_row, 4) + rng.pick(&[0, 0, 1, 5]);
        put(file, made.assembled.table + 64 * row, 4, name);
        return;
    }
    let (offset, len) = made.assembled.spans[made.assembled.index("shstrtab")];
    let at = offset + rng.index(len);
    file[at] = rng.pick(&[0, b'.', b'x', file[at] ^ 0x20]);
}

/// Changes bytes that no rule consults: those of ignored contents and those that belong to nothing.
pub fn free_bytes(assembled: &Assembled, file: &mut [u8], rng: &mut Rng) {
    let mut consulted = vec![false; file.len()];
    let table = (assembled.table, 64 * assembled.roles.len());
    let ignored = |role: &str| matches!(role, "ignored" | "rela_ignored");
    let read = assembled.spans.iter().zip(&assembled.roles).filter(|(_, role)| !ignored(role)).map(|(span, _)| *span);
    for (offset, len) in [(0, 64), table].into_iter().chain(read) {
        consulted[offset..offset + len].fill(true);
    }
    for at in (0..file.len()).filter(|at| !consulted[*at]) {
        file[at] = rng.byte();
    }
}

fn length(file: &mut Vec<u8>, rng: &mut Rng) {
    match rng.below(5) {
        0 => file.truncate(rng.index(file.len())),
        1 => file.truncate(file.len() - rng.index(64.min(file.len()))),
        2 => file.truncate(rng.index(130)),
        3 => {
            let more = rng.index(FILE + 1_000);
            file.extend(rng.bytes(more));
        }
        _ => {
            let len = rng.pick(&[FILE_LEAST - 1, FILE_LEAST, FILE - 1, FILE, FILE + 1]);
            file.resize(len, rng.byte());
        }
    }
}

/// Copies a part of another file over this one.
fn splice(file: &mut [u8], from: &[u8], rng: &mut Rng) {
    let most = rng.pick(&[8, 64, 640, 4096]);
    let len = 1 + rng.index(most).min(from.len() - 1).min(file.len() - 1);
    let (to, at) = (rng.index(file.len() - len + 1), rng.index(from.len() - len + 1));
    file[to..to + len].copy_from_slice(&from[at..at + len]);
}

/// Damages a symbol list.
pub fn symbol_list(list: &mut Vec<u8>, rng: &mut Rng) {
    for _ in 0..rng.pick(&[1, 1, 2, 8]) {
        match rng.below(8) {
            0 => list.truncate(rng.index(list.len() + 1)),
            1 => list.push(rng.byte()),
            2 | 3 => drop_entry(list, rng),
            4 => {
                let at = rng.index(list.len().min(8));
                list.get_mut(at).into_iter().for_each(|byte| *byte = byte.wrapping_add(1));
            }
            _ => {
                let at = rng.index(list.len());
                let any = rng.byte();
                let value = rng.pick(&[0, 1, 0x7f, 0x80, 0xff, any]);
                list.get_mut(at).into_iter().for_each(|byte| *byte = value);
            }
        }
    }
    if rng.one_in(2) && list.len() >= 4 {
        let following = list.len() as u32 - 4;
        list[..4].copy_from_slice(&following.to_be_bytes());
    }
}

/// Takes one entry out of a whole list and counts again, so that a name is missing from it.
fn drop_entry(list: &mut Vec<u8>, rng: &mut Rng) {
    let mut starts = Vec::new();
    let mut at = 7;
    while at + 9 <= list.len() {
        starts.push(at);
        at += 9 + usize::from(list[at + 8]);
    }
    if starts.is_empty() || at != list.len() {
        return;
    }
    let start = rng.pick(&starts);
    list.drain(start..start + 9 + usize::from(list[start + 8]));
    let (following, count) = (list.len() as u32 - 4, starts.len() as u16 - 1);
    list[..4].copy_from_slice(&following.to_be_bytes());
    list[5..7].copy_from_slice(&count.to_be_bytes());
}

/// Changes the numbers that come with the payload.
fn surroundings(input: &mut Input, rng: &mut Rng) {
    let (file, number) = (input.file.len(), rng.below(12));
    match number {
        0..=3 => input.text_base = other(input.text_base, file, 64, rng),
        4..=6 => input.text_len = other(input.text_len, file, 64, rng),
        7..=10 => input.slot_base = other(input.slot_base, file, 64, rng),
        _ => {
            let buffer = rng.index(3);
            let size = rng.pick(&[SUMMARY, EDIT_TABLE, SLOT]);
            input.buffers[buffer] = rng.pick(&[0, 1, size / 2, size - 1, size, size + 1]);
        }
    }
}
