//! What a payload is to do: its records, and the symbol list that names their functions.

use super::surroundings::{edge, surroundings};
use crate::payloads::draft::Draft;
use crate::rng::Rng;
use crate::second::limits::RECORDS;
use crate::second::Surroundings;
use std::collections::BTreeMap;

/// A function record to be.
pub struct Planned {
    /// The address of the old function.
    pub old: u64,
    pub old_size: u32,
    /// The length of a fill; none for a jump.
    pub fill: Option<u32>,
    /// The function's name, where the record finds it by name.
    pub name: Option<Vec<u8>>,
    /// Where the new code begins and how long it is, as parts of the placed bytes (in 2^32).
    new_start: u64,
    new_length: u64,
}

impl Planned {
    /// Offset and size of the new code in the placed bytes.
    pub fn new_code(&self, placed: u64) -> (u64, u32) {
        let offset = ((placed - 1) * self.new_start) >> 32;
        let size = 1 + (((placed - offset - 1) * self.new_length) >> 32);
        (offset, size as u32)
    }

    /// The bytes that the record asks to be written.
    pub fn edit(&self, draft: &Draft) -> Vec<u8> {
        match self.fill {
            Some(size) => vec![0x90; size as usize],
            None => {
                let (offset, _) = self.new_code(draft.placement().1);
                let to = draft.slot_base.wrapping_add(offset);
                let distance = to.wrapping_sub(self.old).wrapping_sub(5) as u32;
                [&[0xe9], &distance.to_le_bytes()[..]].concat()
            }
        }
    }
}

pub struct Plan {
    pub around: Surroundings,
    pub records: Vec<Planned>,
    /// Names that strictly rise, with their addresses.
    pub list: Vec<(Vec<u8>, u64)>,
    /// How many sections the payload is to have, at least.
    pub sections: usize,
    /// The lengths of dependency and id, where they are given.
    pub notes: Option<[u64; 2]>,
}

impl Plan {
    /// A plan for a valid payload, or for one whose slot lies where the reach of jumps ends.
    pub fn new(at_edge: bool, rng: &mut Rng) -> Plan {
        let count = match rng.below(6) {
            0 => RECORDS as u64,
            1 => rng.between(1, RECORDS as u64),
            _ => rng.between(1, 4),
        };
        Plan::counted(count, None, at_edge, rng)
    }

    /// The same with so many records, and with notes of these lengths where they are given.
    pub fn counted(count: u64, notes: Option<[u64; 2]>, at_edge: bool, rng: &mut Rng) -> Plan {
        let fills_only = !at_edge && rng.one_in(4);
        let fills = fills(count, fills_only, rng);
        let covered = covered(&fills);
        let text_len = match rng.below(5) {
            0 => covered,
            _ if at_edge => covered + rng.below(64),
            1 => covered + rng.below(64),
            2 => 1 << 24,
            _ => rng.between(covered, 1 << 24),
        };
        let near = fills.iter().any(Option::is_none) || rng.one_in(2);
        let around = if at_edge { edge(text_len, rng) } else { surroundings(text_len, near, rng) };
        Plan::of(around, &fills, notes, rng)
    }

    /// A plan for a valid payload in a given slot, near the text: so many records, or as many as the text has room for; notes of
    /// these lengths, the dependency's and the id's.
    pub fn within(around: Surroundings, count: u64, notes: [u64; 2], rng: &mut Rng) -> Plan {
        let fills_only = rng.one_in(4);
        let mut fills = fills(count, fills_only, rng);
        while covered(&fills) > around.text_len {
            fills.pop();
        }
        if fills.is_empty() {
            fills.push(Some(1));
        }
        Plan::of(around, &fills, Some(notes), rng)
    }

    fn of(around: Surroundings, fills: &[Option<u32>], notes: Option<[u64; 2]>, rng: &mut Rng) -> Plan {
        let mut list = other_names(&around, rng);
        let mut records = records(fills, &around, rng);
        for record in &mut records {
            name(record, &mut list, rng);
        }
        let sections = match rng.below(8) {
            0 => 6,
            1..=4 => rng.between(7, 20),
            5 | 6 => rng.between(20, 63),
            _ => 64,
        };
        Plan { around, records, list: list.into_iter().collect(), sections: sections as usize, notes }
    }
}

/// So many edits: the length of a fill, none for a jump.
fn fills(count: u64, fills_only: bool, rng: &mut Rng) -> Vec<Option<u32>> {
    (0..count).map(|_| (fills_only || rng.one_in(3)).then(|| rng.between(1, 31) as u32)).collect()
}

/// The bytes that the edits cover.
fn covered(fills: &[Option<u32>]) -> u64 {
    fills.iter().map(|fill| u64::from(fill.unwrap_or(5))).sum()
}

/// Records whose edits touch no common byte, in any order.
fn records(fills: &[Option<u32>], around: &Surroundings, rng: &mut Rng) -> Vec<Planned> {
    let mut spare = around.text_len - covered(fills);
    let mut offset = 0;
    let mut records = Vec::new();
    for fill in fills {
        let gap = if rng.one_in(2) { 0 } else { rng.below(spare + 1) };
        spare -= gap;
        offset += gap;
        let length = u64::from(fill.unwrap_or(5));
        let most = around.text_len - offset;
        let old_size = match rng.below(4) {
            0 => length,
            1 => most,
            _ => rng.between(length, most.min(length + 200)),
        } as u32;
        let (new_start, new_length) = (part(rng), part(rng));
        let old = around.text_base + offset;
        records.push(Planned { old, old_size, fill: *fill, name: None, new_start, new_length });
        offset += length;
    }
    rng.shuffle(&mut records);
    records
}

/// A part of 2^32.
fn part(rng: &mut Rng) -> u64 {
    let any = rng.below(1 << 32);
    rng.pick(&[0, 1 << 32, 1 << 31, any])
}

/// Decides whether a record finds its function by name: it must where the address is 0.
fn name(record: &mut Planned, list: &mut BTreeMap<Vec<u8>, u64>, rng: &mut Rng) {
    if record.old != 0 && rng.one_in(2) {
        return;
    }
    let name = random_name(rng);
    list.insert(name.clone(), record.old);
    record.name = Some(name);
}

/// A name that a symbol list can hold.
pub fn random_name(rng: &mut Rng) -> Vec<u8> {
    let len = match rng.below(8) {
        0 => 127,
        1 => rng.between(4, 127),
        _ => rng.between(4, 20),
    };
    let low = rng.pick(&[1, b'a', b'a', 0x70]);
    let high = rng.pick(&[b'z', b'z', 0xff, 0x90]);
    (0..len).map(|_| rng.between(u64::from(low), u64::from(high)) as u8).collect()
}

/// Listed names that no record needs.
fn other_names(around: &Surroundings, rng: &mut Rng) -> BTreeMap<Vec<u8>, u64> {
    let count = match rng.below(10) {
        0 => 0,
        1 => rng.between(1, 400),
        _ => rng.between(1, 20),
    };
    let mut names = BTreeMap::new();
    for _ in 0..count {
        let near = around.text_base.wrapping_add(rng.below(around.text_len));
        let address = rng.pick(&[near, near, near, 0, u64::MAX, around.slot_base]);
        names.insert(random_name(rng), address);
    }
    names
}
