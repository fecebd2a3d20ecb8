//! Symbols, relocations and record contents of a random payload.

use super::plan::{random_name, Plan, Planned};
use crate::payloads::draft::{Contents, Draft, Record, Ref, Relocation, Symbol};
use crate::rng::Rng;

/// Symbols that relocations may use, by number and value.
struct Symbols {
    usable: Vec<(u32, u64)>,
    /// No symbol but number 0.
    none: bool,
}

/// Fills the relocations and the records of a draft whose sections have their places.
pub fn fill(draft: &mut Draft, plan: &Plan, rng: &mut Rng) {
    let mut symbols = Symbols { usable: vec![(0, 0)], none: rng.one_in(12) };
    fill_records(draft, plan, &mut symbols, rng);
    let (starts, _) = draft.placement();
    for index in 0..draft.sections.len() {
        let section = &draft.sections[index];
        if let ("rela_plain", Ref::Number(target)) = (section.role, section.info) {
            let start = starts[target as usize].unwrap_or(0);
            let size = draft.sections[target as usize].size();
            let count = rng.pick(&[0, 1, 3, 10, 25]);
            let entries = (0..count).map(|_| any(draft, &mut symbols, start, size, rng)).collect();
            draft.sections[index].contents = Contents::Relocations(entries);
        }
    }
    if symbols.none && rng.one_in(2) {
        draft.symbols.clear();
    }
}

impl Symbols {
    /// A symbol to use, an old one or a new one.
    fn pick(&mut self, draft: &mut Draft, rng: &mut Rng) -> (u32, u64) {
        if !self.none && draft.symbols.len() < 80 && rng.one_in(3) {
            while rng.one_in(4) {
                draft.symbols.push(broken(rng));
            }
            let (symbol, value) = usable(draft, rng);
            self.usable.push((draft.add_symbol(symbol), value));
        }
        rng.pick(&self.usable)
    }
}

/// A symbol that no relocation may use.
fn broken(rng: &mut Rng) -> Symbol {
    let home = Ref::Number(rng.pick(&[0xff00, 0xfff2, 0xffff, 0xfeff, 64, 0]));
    Symbol { name_at: Some(rng.number() as u32), info: rng.byte(), ..Symbol::new(b"", home, rng.number()) }
}

/// A weak symbol that is not listed.
fn weak(draft: &Draft, rng: &mut Rng) -> Option<Symbol> {
    let any = random_name(rng);
    let name = rng.pick(&[&any[..], &any, &[], &[b'w'; 130]]);
    let info = 0x20 | rng.byte() & 0xf;
    let listed = draft.list.iter().any(|entry| entry.0 == name);
    Some(Symbol { info, ..Symbol::new(name, Ref::Number(0), rng.number()) }).filter(|_| !listed)
}

/// A symbol and its value.
fn usable(draft: &Draft, rng: &mut Rng) -> (Symbol, u64) {
    if rng.one_in(6) {
        if let Some(symbol) = weak(draft, rng) {
            return (symbol, 0);
        }
    }
    let (starts, _) = draft.placement();
    let places: Vec<usize> = (0..starts.len()).filter(|index| starts[*index].is_some()).collect();
    let (symbol, value) = match rng.below(5) {
        0 | 1 if !draft.list.is_empty() => {
            let (name, address) = &draft.list[rng.index(draft.list.len())];
            (Symbol::new(name, Ref::Number(0), rng.number()), *address)
        }
        0..=3 => {
            let home = rng.pick(&places);
            let size = draft.sections[home].size();
            let within = rng.pick(&[0, 0, size, size / 2]);
            let address = draft.slot_base.wrapping_add(starts[home].unwrap_or(0)).wrapping_add(within);
            (Symbol::new(&random_name(rng), Ref::Number(home as u32), within), address)
        }
        _ => {
            let any = rng.number();
            let value = rng.pick(&[0, 1, u64::MAX, draft.text_base, any]);
            (Symbol::new(b"", Ref::Number(0xfff1), value), value)
        }
    };
    (Symbol { info: rng.byte(), other: rng.byte(), size: rng.number(), ..symbol }, value)
}

/// A relocation that stores a wanted number at an offset of a section.
fn store(
    draft: &mut Draft,
    symbols: &mut Symbols,
    offset: u64,
    kind: u32,
    wanted: u64,
    field: u64,
    rng: &mut Rng,
) -> Relocation {
    let (symbol, value) = symbols.pick(draft, rng);
    let from = if kind == 1 { 0 } else { field };
    Relocation { offset, kind, symbol, addend: wanted.wrapping_add(from).wrapping_sub(value) }
}

/// Any relocation of a section that begins at `start` of the slot and has `size` bytes.
fn any(draft: &mut Draft, symbols: &mut Symbols, start: u64, size: u64, rng: &mut Rng) -> Relocation {
    let kind = rng.pick(&[0, 1, 1, 2, 2, 4, 4]);
    let width = if kind == 1 { 8 } else { 4 };
    if kind == 0 || size < width {
        return Relocation { offset: rng.number(), kind: 0, symbol: rng.number() as u32, addend: rng.number() };
    }
    let within = rng.between(0, size - width);
    let offset = rng.pick(&[0, size - width, within]);
    let field = draft.slot_base.wrapping_add(start + offset);
    let number = rng.number();
    let wanted = match kind {
        1 => number,
        _ => rng.pick(&[0, 1, -1, i64::from(i32::MAX), i64::from(i32::MIN), i64::from(number as i32)]) as u64,
    };
    store(draft, symbols, offset, kind, wanted, field, rng)
}

/// Writes the records, some of their fields by relocations.
fn fill_records(draft: &mut Draft, plan: &Plan, symbols: &mut Symbols, rng: &mut Rng) {
    let relocations: Vec<usize> =
        (0..draft.sections.len()).filter(|i| draft.sections[*i].role == "rela_funcs").collect();
    let mut entries: Vec<Vec<Relocation>> = vec![Vec::new(); relocations.len()];
    let mut names = name_offsets(draft, plan);
    let mut bytes = Vec::new();
    for (index, planned) in plan.records.iter().enumerate() {
        let mut record = written(draft, planned, &mut names, rng).bytes();
        if !relocations.is_empty() {
            let chosen = rng.index(relocations.len());
            let found = relocated(draft, symbols, index, &mut record, rng);
            entries[chosen].extend(found);
        }
        bytes.extend(record);
    }
    *draft.bytes("funcs") = bytes;
    for (section, mut entries) in relocations.into_iter().zip(entries) {
        for _ in 0..rng.index(3) {
            let at = rng.index(entries.len() + 1);
            entries.insert(
                at,
                Relocation { offset: rng.number(), kind: 0, symbol: rng.number() as u32, addend: rng.number() },
            );
        }
        draft.sections[section].contents = Contents::Relocations(entries);
    }
}

/// Where the names of the named records stand in the slot, in their order.
fn name_offsets(draft: &mut Draft, plan: &Plan) -> std::vec::IntoIter<u64> {
    let names: Vec<&Vec<u8>> = plan.records.iter().filter_map(|record| record.name.as_ref()).collect();
    if names.is_empty() {
        return Vec::new().into_iter();
    }
    let start = draft.start("strings");
    let bytes = draft.bytes("strings");
    let mut from = 0;
    let mut offsets = Vec::new();
    for name in names {
        let ended = [&name[..], &[0]].concat();
        let at = bytes[from..].windows(ended.len()).position(|window| window == ended);
        let at = from + at.expect("every name stands in the strings");
        offsets.push(start + at as u64);
        from = at + ended.len();
    }
    offsets.into_iter()
}

/// The record that a plan asks for, all fields as a loader must see them.
fn written(draft: &Draft, planned: &Planned, names: &mut impl Iterator<Item = u64>, rng: &mut Rng) -> Record {
    let (name, old_addr) = match planned.name {
        Some(_) => (draft.slot_base.wrapping_add(names.next().unwrap_or(0)), 0),
        None => (rng.number(), planned.old),
    };
    let (new_addr, new_size) = match planned.fill {
        Some(size) => (0, size),
        None => {
            let (offset, size) = planned.new_code(draft.placement().1);
            (draft.slot_base.wrapping_add(offset), size)
        }
    };
    Record { name, ..Record::new(new_addr, old_addr, new_size, planned.old_size) }
}

/// Takes some fields out of a record's bytes and stores them by relocations instead.
fn relocated(
    draft: &mut Draft,
    symbols: &mut Symbols,
    index: usize,
    record: &mut [u8],
    rng: &mut Rng,
) -> Vec<Relocation> {
    let start = draft.start("funcs");
    let mut entries = Vec::new();
    for (at, kind, chance) in [(0, 1, 2), (8, 1, 2), (16, 1, 3), (24, 2, 12), (28, 4, 12), (32, 2, 20)] {
        if !rng.one_in(chance) {
            continue;
        }
        let width = if kind == 1 { 8 } else { 4 };
        let mut wide = [0; 8];
        wide[..width].copy_from_slice(&record[at..at + width]);
        let wanted = u64::from_le_bytes(wide);
        if kind != 1 && wanted >= 1 << 31 {
            continue;
        }
        let offset = 64 * index as u64 + at as u64;
        let field = draft.slot_base.wrapping_add(start + offset);
        if rng.one_in(6) {
            // an earlier relocation of the same field, which the next one overwrites
            let other = rng.number() >> 34;
            entries.push(store(draft, symbols, offset, kind, other, field, rng));
        }
        entries.push(store(draft, symbols, offset, kind, wanted, field, rng));
        let before = rng.bytes(width);
        record[at..at + width].copy_from_slice(&before);
    }
    entries
}
