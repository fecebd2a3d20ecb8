//! What moves a job on: reports, ticks, work steps.

use super::host::sizes;
use super::state::{Job, State, APPLIED, APPLY, CHECKED, REPLACE, REVERT};
use super::steps::{steps, Step};
use crate::second::limits::{RECORDS, UNDO_RECORD};
use crate::second::refusal::Refusal;

/// The result of a job whose time is over.
const TIMED_OUT: u32 = 16;

impl State {
    pub fn report(&mut self, cpu: u32) -> Result<(), Refusal> {
        if self.job.action == 0 || cpu >= self.host.cpus {
            return Err(Refusal::nowhere(22));
        }
        self.job.held[cpu as usize] = true;
        Ok(())
    }

    pub fn tick(&mut self) -> Result<(), Refusal> {
        if self.job.action == 0 {
            return Err(Refusal::nowhere(22));
        }
        if !self.complete() {
            self.job.ticks -= 1;
            if self.job.ticks == 0 {
                self.end_job(TIMED_OUT);
            }
        }
        Ok(())
    }

    pub fn work(&mut self, text: &mut [u8], undo: &mut [u8]) -> Result<(), Refusal> {
        let sized = text.len() as u64 == self.host.text_len && sizes(None, Some(undo), None);
        if !sized || self.job.action == 0 {
            return Err(Refusal::nowhere(22));
        }
        if !self.complete() {
            return Err(Refusal::nowhere(16));
        }
        let steps = steps(self).unwrap_or_default();
        self.make(steps[self.job.steps as usize], text, undo);
        self.job.steps += 1;
        if self.job.steps as usize == steps.len() {
            self.set_statuses();
            self.end_job(0);
        }
        Ok(())
    }

    /// Makes one edit, or takes it off.
    fn make(&self, step: Step, text: &mut [u8], undo: &mut [u8]) {
        let (Step::TakeOff { slot, record } | Step::Lay { slot, record }) = step;
        let edit = match self.in_slot(slot) {
            Some(payload) => payload.edits()[record],
            None => return,
        };
        let covered = &mut text[edit.offset as usize..(edit.offset + edit.length) as usize];
        let number = RECORDS * slot as usize + record;
        let saved = &mut undo[UNDO_RECORD * number..UNDO_RECORD * (number + 1)];
        let (saved, rest) = saved.split_at_mut(covered.len());
        match step {
            Step::Lay { .. } => {
                saved.copy_from_slice(covered);
                covered.copy_from_slice(&edit.bytes());
            }
            Step::TakeOff { .. } => {
                covered.copy_from_slice(saved);
                saved.fill(0);
            }
        }
        rest.fill(0);
    }

    /// What the last step makes of the statuses and of the stack.
    fn set_statuses(&mut self) {
        let Job { action, slot, .. } = self.job;
        if action == REPLACE {
            self.payloads.iter_mut().for_each(|payload| payload.status = CHECKED);
            self.applied = 0;
        }
        if matches!(action, APPLY | REPLACE) {
            self.stack[self.applied] = slot;
            self.applied += 1;
        } else {
            self.applied -= 1;
        }
        let status = if action == REVERT { CHECKED } else { APPLIED };
        if let Some(index) = self.index_of_slot(slot) {
            self.payloads[index].status = status;
        }
    }

    /// Frees all CPUs, and leaves the job's payload this result, negated.
    fn end_job(&mut self, result: u32) {
        if let Some(index) = self.index_of_slot(self.job.slot) {
            self.payloads[index].result = result;
        }
        self.job = Job::none();
    }
}
