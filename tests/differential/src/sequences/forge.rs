//! Forged memory: changes of the records buffer, and of the rest, that no call made.

use super::memory::Memory;
use crate::rng::Rng;
use crate::second::bytes::field;
use crate::second::calls::codec::{edit_at, payload_at, stack_at, DEPENDENCY, EDITS, EDIT_COUNT, HELD};
use crate::second::calls::state::State;
use crate::second::limits::{CPUS, ID, NAME, RECORDS};

/// Bytes to write at an offset of the records buffer.
pub type Write = (usize, Vec<u8>);

/// Offsets and widths of the numbers before the stack, of those of a payload, and of those of an edit.
const OF_HEAD: [(usize, usize); 12] =
    [(0, 8), (8, 8), (16, 8), (24, 4), (28, 4), (32, 8), (40, 8), (48, 4), (52, 4), (56, 4), (60, 4), (64, 4)];
const OF_PAYLOAD: [(usize, usize); 7] = [(128, 4), (132, 4), (136, 4), (140, 4), (144, 4), (148, 4), (EDIT_COUNT, 4)];
const OF_EDIT: [(usize, usize); 4] = [(0, 4), (4, 4), (8, 4), (12, 8)];

/// Numbers at which rules change their mind.
const SPECIAL: [u64; 33] = [
    0, 1, 2, 3, 4, 5, 6, 7, 8, 9, 30, 31, 32, 33, 34, 63, 64, 65, 127, 128, 129, 255, 256, 257, 287, 288, 4_096, 8_192,
    16_777_216, 16_777_217, 0x8000_0000, 0xffff_ffff, 0xffff_ffff_ffff_ffff,
];

/// Some changes of the records, which are this state.
pub fn changes(records: &[u8], state: &State, rng: &mut Rng) -> Vec<Write> {
    match rng.below(10) {
        0 | 1 => vec![one_byte(records, state, rng)],
        2..=4 => vec![one_field(records, state, rng)],
        5 => vec![flag(state, rng)],
        6 => (0..3).map(|_| one_field(records, state, rng)).collect(),
        7 => behind_the_counts(state, rng),
        8 => job(state, rng),
        _ => slots(state, rng),
    }
}

pub fn write(records: &mut [u8], writes: &[Write]) {
    writes.iter().for_each(|(at, bytes)| records[*at..*at + bytes.len()].copy_from_slice(bytes));
}

/// Writes over parts of the text, the arena and the stores.
pub fn scribble(memory: &mut Memory, rng: &mut Rng) {
    for part in [&mut memory.text, &mut memory.arena, &mut memory.undo, &mut memory.ids] {
        let bytes = part.inner_mut();
        let (at, length) = (rng.index(bytes.len()), rng.index(9_000));
        bytes[at..].iter_mut().take(length).for_each(|byte| *byte = rng.byte());
    }
}

fn one_byte(records: &[u8], state: &State, rng: &mut Rng) -> Write {
    let used = payload_at(state.payloads.len());
    let most = if rng.one_in(4) { records.len() } else { used };
    let at = rng.index(most);
    let (any, flipped) = (rng.byte(), records[at] ^ 1 << rng.below(8));
    let value = rng.pick(&[flipped, records[at].wrapping_add(1), 0, 1, 2, 0xff, any]);
    (at, vec![value])
}

/// A place of a payload, mostly one that is used.
fn place(state: &State, rng: &mut Rng) -> usize {
    match rng.one_in(6) || state.payloads.is_empty() {
        true => rng.index(8),
        false => rng.index(state.payloads.len()),
    }
}

fn one_field(records: &[u8], state: &State, rng: &mut Rng) -> Write {
    let place = place(state, rng);
    let (at, width) = match rng.below(6) {
        0 | 1 => rng.pick(&OF_HEAD),
        2 => (stack_at(rng.index(8)), 4),
        3 | 4 => {
            let (at, width) = rng.pick(&OF_PAYLOAD);
            (payload_at(place) + at, width)
        }
        _ => {
            let (at, width) = rng.pick(&OF_EDIT);
            let used = state.payloads.get(place).map_or(RECORDS, |payload| payload.edit_count as usize);
            (edit_at(place, rng.index(used)) + at, width)
        }
    };
    let old = field(records, at, width);
    let (near, flipped) = (state.host.text_len.wrapping_sub(rng.below(34)), old ^ 1 << rng.below(64));
    let other = rng.pick(&SPECIAL);
    let value = rng.pick(&[other, other, old.wrapping_add(1), old.wrapping_sub(1), flipped, near]);
    (at, value.to_le_bytes()[..width].to_vec())
}

/// A byte of which few values are a state: a CPU's, an edit's kind, the displacement of no-ops.
fn flag(state: &State, rng: &mut Rng) -> Write {
    let value = rng.pick(&[0, 1, 1, 2, 0x80, 0xff]);
    match rng.below(3) {
        0 => (HELD + rng.index(CPUS), vec![value]),
        1 => (edit_at(place(state, rng), rng.index(RECORDS)) + 8 + rng.index(4), vec![value]),
        _ => (edit_at(place(state, rng), rng.index(RECORDS)) + 12 + rng.index(8), vec![value]),
    }
}

/// Bytes that no call looks at: a state as before.
fn behind_the_counts(state: &State, rng: &mut Rng) -> Vec<Write> {
    let mut writes = Vec::new();
    for place in state.payloads.len()..8 {
        writes.push((payload_at(place), rng.bytes(EDITS)));
        writes.push((edit_at(place, rng.index(RECORDS)), rng.bytes(8)));
    }
    for entry in state.applied..8 {
        writes.push((stack_at(entry), rng.bytes(4)));
    }
    for (place, payload) in state.payloads.iter().enumerate() {
        let (name, dependency) = (payload.name_len as usize, payload.dependency_len as usize);
        writes.push((payload_at(place) + name, rng.bytes(NAME - name)));
        writes.push((payload_at(place) + DEPENDENCY + dependency, rng.bytes(ID - dependency)));
        writes.push((payload_at(place) + 140, rng.bytes(4)));
    }
    writes.push((48, vec![0xff; 4]));
    writes
}

/// Another job, or one more far.
fn job(state: &State, rng: &mut Rng) -> Vec<Write> {
    let slots: Vec<u32> = state.payloads.iter().map(|payload| payload.slot).collect();
    let slot = if slots.is_empty() { 0 } else { rng.pick(&slots) };
    let total = rng.pick(&[0, 0, 1, 2, 31, 32, 63, 223, 224, 255, 287]);
    let numbers = [rng.pick(&[2, 3, 4, 4]), slot, rng.between(1, 3) as u32, total];
    let held = (0..CPUS).map(|_| u8::from(!rng.one_in(400))).collect();
    let mut writes = vec![(52, numbers.map(u32::to_le_bytes).concat()), (HELD, held)];
    if rng.one_in(2) {
        writes.extend(stack(state, rng));
    }
    writes
}

/// Any stack of loaded payloads, some of them twice.
fn stack(state: &State, rng: &mut Rng) -> Vec<Write> {
    let slots: Vec<u32> = state.payloads.iter().map(|payload| payload.slot).collect();
    if slots.is_empty() {
        return Vec::new();
    }
    let depth = rng.index(slots.len() + 1);
    let mut writes = vec![(40, (depth as u64).to_le_bytes().to_vec())];
    writes.extend((0..depth).map(|entry| (stack_at(entry), rng.pick(&slots).to_le_bytes().to_vec())));
    writes
}

/// Payloads in one slot, payloads of one name, other statuses, other stacks.
fn slots(state: &State, rng: &mut Rng) -> Vec<Write> {
    let mut writes = stack(state, rng);
    for place in 0..state.payloads.len() {
        let other = &state.payloads[rng.index(state.payloads.len())];
        match rng.below(4) {
            0 => writes.push((payload_at(place) + 132, other.slot.to_le_bytes().to_vec())),
            1 => writes.push((payload_at(place) + 136, vec![rng.pick(&[1, 2]), 0, 0, 0])),
            2 if rng.one_in(3) => {
                let length = other.name_len.to_le_bytes();
                writes.push((payload_at(place), [&other.name[..], &length].concat()));
            }
            _ => (),
        }
    }
    writes
}
