//! Unload, revert, apply and replace.

use super::host::sizes;
use super::state::{Job, Loaded, State, APPLIED, APPLY, CHECKED, REPLACE, REVERT, UNLOAD};
use crate::second::limits::{ID, SLOT, UNDO_SLOT};
use crate::second::refusal::Refusal;

/// What a job has as its payload's result while it stands.
const STANDS: u32 = 11;

/// The ticks of a job that is given a time of 0.
const TICKS: u32 = 30;

/// The memory that an action is given.
pub struct Lent<'a> {
    pub arena: &'a mut [u8],
    pub undo: &'a mut [u8],
    pub ids: &'a mut [u8],
    pub build_id: &'a [u8],
}

impl State {
    /// A refusal may set the payload's result.
    pub fn action(&mut self, lent: Lent, name: &[u8], command: u32, time: u32) -> Result<(), Refusal> {
        let sized = sizes(Some(lent.arena), Some(lent.undo), Some(lent.ids)) && self.has_build_id(lent.build_id);
        if !sized {
            return Err(Refusal::nowhere(22));
        }
        let index = self.target(name)?;
        if ![UNLOAD, REVERT, APPLY, REPLACE].contains(&command) {
            return Err(Refusal::nowhere(22));
        }
        if self.is_busy(index, command) {
            return Err(Refusal::nowhere(16));
        }
        if let Some(number) = self.unfit(index, command, &lent) {
            self.payloads[index].result = number;
            return Err(Refusal::nowhere(number.into()));
        }
        if command == UNLOAD {
            self.unload(index, lent);
        } else {
            self.payloads[index].result = STANDS;
            let ticks = if time == 0 { TICKS } else { time };
            self.job = Job { action: command, slot: self.payloads[index].slot, ticks, ..Job::none() };
        }
        Ok(())
    }

    /// Whether a job stands in the way.
    fn is_busy(&self, index: usize, command: u32) -> bool {
        self.job.action != 0 && (command != UNLOAD || self.payloads[index].slot == self.job.slot)
    }

    /// The number of a wrong status, a wrong dependency, or a revert of one that isn't top.
    fn unfit(&self, index: usize, command: u32, lent: &Lent) -> Option<u32> {
        let payload = &self.payloads[index];
        let wanted = if command == REVERT { APPLIED } else { CHECKED };
        let stands_on = match command {
            REVERT => self.top() == Some(payload.slot),
            APPLY => payload.dependency() == self.top_id_bytes(lent),
            REPLACE => payload.dependency() == lent.build_id,
            _ => true,
        };
        if payload.status != wanted {
            return Some(22);
        }
        (!stands_on).then_some(33)
    }

    fn top_id_bytes<'l>(&self, lent: &'l Lent) -> &'l [u8] {
        let id = self.top_id();
        let held_by: &[u8] = if id.in_store { lent.ids } else { lent.build_id };
        &held_by[id.offset..id.offset + id.length]
    }

    fn unload(&mut self, index: usize, lent: Lent) {
        let slot = self.payloads.remove(index).slot as usize;
        self.unused.push(Loaded::nothing());
        self.version = self.version.wrapping_add(1);
        let part = |size: usize| size * slot..size * (slot + 1);
        lent.arena[part(SLOT)].fill(0);
        lent.undo[part(UNDO_SLOT)].fill(0);
        lent.ids[part(ID)].fill(0);
    }
}
