//! Payloads for written-down sequences: few sections, no symbols, and edits that are known beforehand.

use super::world::World;
use crate::payloads::assemble::assemble;
use crate::payloads::draft::{Draft, Record};
use crate::payloads::template::{note, template};
use crate::second::limits::RECORDS;

/// What a function record asks for, at an offset of the text.
#[derive(Clone, Copy, Debug)]
pub enum Edit {
    /// So many no-ops.
    NoOps(u64, u32),
    Jump(u64),
}

#[derive(Clone)]
pub struct Plain {
    pub slot: usize,
    pub id: Vec<u8>,
    pub dependency: Vec<u8>,
    pub edits: Vec<Edit>,
}

impl Plain {
    pub fn new(slot: usize, id: &[u8], dependency: &[u8], edits: &[Edit]) -> Plain {
        Plain { slot, id: id.to_vec(), dependency: dependency.to_vec(), edits: edits.to_vec() }
    }

    /// The payload for its slot of a host.
    pub fn draft(&self, world: &World) -> Draft {
        let around = world.host.around(self.slot);
        let mut draft = template(0);
        (draft.text_base, draft.text_len, draft.slot_base) = (around.text_base, around.text_len, around.slot_base);
        draft.slim();
        draft.list.clear();
        *draft.bytes("depends") = note(&self.dependency);
        *draft.bytes("build_id") = note(&self.id);
        draft.add_bytes("code", ".text", 16, &[0xcc; RECORDS]);
        draft.reserve_records(self.edits.len() as u64);
        let records: Vec<Record> = self.edits.iter().enumerate().map(|(at, edit)| record(&draft, at, *edit)).collect();
        draft.set_records(&records);
        draft
    }

    pub fn file(&self, world: &World) -> Vec<u8> {
        assemble(&self.draft(world)).file
    }

    /// What its edits are: the offset in the text and the bytes, by record.
    pub fn writes(&self, world: &World) -> Vec<(usize, Vec<u8>)> {
        let draft = self.draft(world);
        let write = |(at, edit): (usize, &Edit)| match *edit {
            Edit::NoOps(offset, length) => (offset as usize, vec![0x90; length as usize]),
            Edit::Jump(offset) => {
                let distance = new_code(&draft, at).wrapping_sub(draft.text_base + offset + 5) as u32;
                (offset as usize, [&[0xe9], &distance.to_le_bytes()[..]].concat())
            }
        };
        self.edits.iter().enumerate().map(write).collect()
    }
}

/// Each record has a byte of new code of its own.
fn new_code(draft: &Draft, record: usize) -> u64 {
    draft.address("code") + record as u64
}

fn record(draft: &Draft, at: usize, edit: Edit) -> Record {
    match edit {
        Edit::NoOps(offset, length) => Record::new(0, draft.text_base + offset, length, length),
        Edit::Jump(offset) => Record::new(new_code(draft, at), draft.text_base + offset, 1, 5),
    }
}

/// Lays edits over a text, in order.
pub fn lay(text: &mut [u8], writes: &[(usize, Vec<u8>)]) {
    writes.iter().for_each(|(at, bytes)| text[*at..*at + bytes.len()].copy_from_slice(bytes));
}
