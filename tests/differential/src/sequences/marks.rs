//! States and turns that sequences have to reach.

use super::call::Does;
use crate::second::calls::state::{State, APPLY, REPLACE, REVERT, UNLOAD};
use crate::second::calls::steps::steps;
use std::collections::BTreeMap;

pub const EIGHT_LOADED: &str = "eight payloads loaded";
pub const SEVEN_APPLIED: &str = "a stack of seven";
pub const EIGHT_APPLIED: &str = "a stack of eight";
pub const OVERLAP: &str = "a payload applied over bytes of another's edits";
pub const JOB_256: &str = "a job of 256 steps ended";
pub const REPLACE_SEVEN: &str = "a replace over seven ended";
pub const UNLOAD_GATHERING: &str = "an unload while another's job gathers";
pub const UNLOAD_COMPLETE: &str = "an unload in a complete rendezvous";
pub const TIMEOUT_NONE: &str = "a time-out with no CPU held";
pub const TIMEOUT_SOME: &str = "a time-out with some CPUs held";
pub const TIMEOUT_ALL_BUT_ONE: &str = "a time-out with all CPUs but one held";
pub const TICK_COMPLETE: &str = "a tick in a complete rendezvous";
pub const REPORT_AGAIN: &str = "a report of a CPU that is held";
pub const SLOT_AGAIN: &str = "a slot used again, with a stack in slots above";
pub const REVERT_NOT_TOP: &str = "a revert of one that isn't top, 33";
pub const APPLY_WRONG: &str = "an apply with a wrong dependency, 33";
pub const REPLACE_WRONG: &str = "a replace with a wrong dependency, 33";
pub const BUSY_LEAVES: &str = "a busy refusal, 16, leaves -11";
pub const BUSY_UNLOAD: &str = "an unload of the job's payload, 16";
pub const FORGED_REFUSED: &str = "forged records refused";
pub const FORGED_ACCEPTED: &str = "forged records accepted";

const ALL: [&str; 21] = [
    EIGHT_LOADED, SEVEN_APPLIED, EIGHT_APPLIED, OVERLAP, JOB_256, REPLACE_SEVEN, UNLOAD_GATHERING, UNLOAD_COMPLETE,
    TIMEOUT_NONE, TIMEOUT_SOME, TIMEOUT_ALL_BUT_ONE, TICK_COMPLETE, REPORT_AGAIN, SLOT_AGAIN, REVERT_NOT_TOP,
    APPLY_WRONG, REPLACE_WRONG, BUSY_LEAVES, BUSY_UNLOAD, FORGED_REFUSED, FORGED_ACCEPTED,
];

/// How often each was reached.
#[derive(Clone, Default)]
pub struct Marks(BTreeMap<&'static str, u64>);

impl Marks {
    pub fn add(&mut self, mark: &'static str) {
        *self.0.entry(mark).or_default() += 1;
    }

    pub fn join(&mut self, other: &Marks) {
        other.0.iter().for_each(|(mark, times)| *self.0.entry(mark).or_default() += times);
    }

    fn times(&self, mark: &str) -> u64 {
        self.0.get(mark).copied().unwrap_or(0)
    }

    pub fn table(&self) -> Vec<String> {
        ALL.iter().map(|mark| format!("{mark:<50} {:>8}", self.times(mark))).collect()
    }

    /// What was not reached.
    pub fn faults(&self) -> Vec<String> {
        ALL.iter().filter(|mark| self.times(mark) == 0).map(|mark| format!("not reached: {mark}")).collect()
    }

    /// Adds what a call reached, by the states before and after it. `freed` are the slots that unloads have freed so far.
    pub fn observe(&mut self, does: &Does, number: u64, before: &State, after: &State, freed: &mut [bool; 8]) {
        match (does, number) {
            (Does::Upload { .. }, 0) => self.uploaded(after, freed),
            (Does::Action { command: UNLOAD, name, .. }, 0) => {
                if let Some(index) = before.index_of_name(name) {
                    freed[before.payloads[index].slot as usize] = true;
                }
                if before.job.action != 0 {
                    self.add(if before.complete() { UNLOAD_COMPLETE } else { UNLOAD_GATHERING });
                }
            }
            (Does::Action { command, name, .. }, 16 | 33) => self.refused(*command, name, number, before, after),
            (Does::Report { cpu }, 0) if before.job.held[*cpu as usize] => self.add(REPORT_AGAIN),
            (Does::Tick, 0) if before.complete() => self.add(TICK_COMPLETE),
            (Does::Tick, 0) if after.job.action == 0 => self.timed_out(before),
            (Does::Work, 0) if after.job.action == 0 => self.job_ended(before, after),
            _ => (),
        }
    }

    fn uploaded(&mut self, after: &State, freed: &[bool; 8]) {
        if after.payloads.len() == 8 {
            self.add(EIGHT_LOADED);
        }
        let slot = after.payloads.last().map_or(0, |payload| payload.slot);
        if freed[slot as usize] && after.applied().iter().any(|applied| *applied > slot) {
            self.add(SLOT_AGAIN);
        }
    }

    fn refused(&mut self, command: u32, name: &[u8], number: u64, before: &State, after: &State) {
        match (number, command) {
            (33, REVERT) => self.add(REVERT_NOT_TOP),
            (33, APPLY) => self.add(APPLY_WRONG),
            (33, _) => self.add(REPLACE_WRONG),
            _ => {
                let own = before.index_of_name(name).filter(|index| before.payloads[*index].slot == before.job.slot);
                if own.map_or(false, |index| after.payloads[index].result == 11) {
                    self.add(if command == UNLOAD { BUSY_UNLOAD } else { BUSY_LEAVES });
                }
            }
        }
    }

    fn timed_out(&mut self, before: &State) {
        let held = before.job.held.iter().filter(|held| **held).count() as u32;
        if held == 0 {
            self.add(TIMEOUT_NONE);
        } else if held + 1 == before.host.cpus {
            self.add(TIMEOUT_ALL_BUT_ONE);
        } else {
            self.add(TIMEOUT_SOME);
        }
    }

    fn job_ended(&mut self, before: &State, after: &State) {
        if steps(before).map_or(0, |steps| steps.len()) == 256 {
            self.add(JOB_256);
        }
        match before.job.action {
            REPLACE if before.applied == 7 => self.add(REPLACE_SEVEN),
            APPLY => {
                match after.applied {
                    7 => self.add(SEVEN_APPLIED),
                    8 => self.add(EIGHT_APPLIED),
                    _ => (),
                }
                if overlaps(after) {
                    self.add(OVERLAP);
                }
            }
            _ => (),
        }
    }
}

/// Whether an edit of the top payload covers a byte that an edit of another applied one covers.
fn overlaps(state: &State) -> bool {
    let edits = |slot: &u32| state.in_slot(*slot).map_or(&[][..], |payload| payload.edits());
    let (top, others) = match state.applied().split_last() {
        Some(parts) => parts,
        None => return false,
    };
    let mut pairs = edits(top).iter().flat_map(|a| others.iter().flat_map(edits).map(move |b| (a, b)));
    pairs.any(|(a, b)| a.offset < b.offset + b.length && b.offset < a.offset + a.length)
}
