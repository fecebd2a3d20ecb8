//! Start-up, and the upload of a payload.

use super::host::{sizes, Host};
use super::state::{is_name, KeptEdit, Loaded, State, CHECKED};
use crate::second::functions::Edit;
use crate::second::limits::{ID, SLOT, SLOTS};
use crate::second::prepare::{prepare_listed, Prepared};
use crate::second::refusal::Refusal;
use crate::second::symbol_list::SymbolList;

/// What start-up is given besides the numbers of the host.
pub struct Lent<'a> {
    pub arena: &'a mut [u8],
    pub undo: &'a mut [u8],
    pub ids: &'a mut [u8],
}

pub fn start(host: Host, lent: Lent) -> Result<State, Refusal> {
    if !host.stands() || !sizes(Some(lent.arena), Some(lent.undo), Some(lent.ids)) {
        return Err(Refusal::nowhere(22));
    }
    lent.arena.fill(0);
    lent.undo.fill(0);
    lent.ids.fill(0);
    Ok(State::started(host))
}

/// What an upload is given.
pub struct Upload<'a> {
    pub name: &'a [u8],
    pub symbols: &'a [u8],
    pub file: &'a [u8],
}

impl State {
    pub fn upload(&mut self, arena: &mut [u8], ids: &mut [u8], given: Upload) -> Result<(), Refusal> {
        if !sizes(Some(arena), None, Some(ids)) || !is_name(given.name) {
            return Err(Refusal::nowhere(22));
        }
        let list = SymbolList::read(given.symbols)?;
        if self.index_of_name(given.name).is_some() {
            return Err(Refusal::nowhere(17));
        }
        let slot = self.free_slot().ok_or(Refusal::nowhere(12))?;
        let prepared = prepare_listed(given.file, &list, &self.host.around(slot))?;
        fill(&mut arena[SLOT * slot..SLOT * (slot + 1)], &prepared.placed);
        fill(&mut ids[ID * slot..ID * (slot + 1)], &prepared.build_id);
        self.payloads.push(self.loaded(given.name, slot, &prepared));
        self.unused.remove(0);
        self.version = self.version.wrapping_add(1);
        Ok(())
    }

    /// The lowest slot that no payload is in, where there is room for one more payload.
    fn free_slot(&self) -> Option<usize> {
        let free = |slot: &usize| self.index_of_slot(*slot as u32).is_none();
        (0..SLOTS).find(free).filter(|_| self.payloads.len() < SLOTS)
    }

    fn loaded(&self, name: &[u8], slot: usize, prepared: &Prepared) -> Loaded {
        let mut loaded = Loaded {
            name_len: name.len() as u32,
            slot: slot as u32,
            status: CHECKED,
            id_len: prepared.build_id.len() as u32,
            dependency_len: prepared.dependency.len() as u32,
            edit_count: prepared.edits.len() as u32,
            ..Loaded::nothing()
        };
        fill(&mut loaded.name, name);
        fill(&mut loaded.dependency, &prepared.dependency);
        for (kept, edit) in loaded.edits.iter_mut().zip(&prepared.edits) {
            *kept = keep(edit, self.host.text_base);
        }
        loaded
    }
}

/// Fills a part of a buffer with bytes, and then zeros.
fn fill(part: &mut [u8], bytes: &[u8]) {
    let (start, rest) = part.split_at_mut(bytes.len());
    start.copy_from_slice(bytes);
    rest.fill(0);
}

/// An edit, by its place in the text. A jump's displacement fits in 4 signed bytes, or there was no edit.
fn keep(edit: &Edit, text_base: u64) -> KeptEdit {
    let jump = match edit.bytes[..] {
        [0xe9, a, b, c, d] => Some(i64::from(i32::from_le_bytes([a, b, c, d])) as u64),
        _ => None,
    };
    KeptEdit { offset: (edit.address - text_base) as u32, length: edit.bytes.len() as u32, jump }
}
