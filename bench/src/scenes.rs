//! Hosts with payloads, and the calls that lead to them.

use crate::case::Case;
use crate::pieces::{ARENA_BASE, TEXT_BASE};
use crate::plan::{Plan, BUILD_ID, LEAST};
use differential::payloads::Input;
use differential::second::calls::state::APPLY;
use differential::second::limits::RECORDS;
use differential::sequences::{Does, World};
use std::rc::Rc;

pub const CPUS: u32 = 8;

/// A host with a text of so many bytes.
pub fn host(text_len: u64) -> Rc<World> {
    Rc::new(World::new(TEXT_BASE, text_len, ARENA_BASE, &BUILD_ID, CPUS))
}

/// The name of a payload, by its slot.
pub fn name(slot: usize) -> Vec<u8> {
    format!("payload-{slot}\0").into_bytes()
}

pub fn upload(slot: usize, payload: Input) -> Does {
    Does::Upload { name: name(slot), symbols: Rc::new(payload.list), file: Rc::new(payload.file) }
}

pub fn action(slot: usize, command: u32) -> Does {
    Does::Action { name: name(slot), command, time: 1_000 }
}

/// The action, and a report of every CPU.
pub fn held(slot: usize, command: u32) -> Vec<Does> {
    let reports = (0..CPUS).map(|cpu| Does::Report { cpu });
    [action(slot, command)].into_iter().chain(reports).collect()
}

pub fn works(count: usize) -> Vec<Does> {
    vec![Does::Work; count]
}

/// Start-up, and so many payloads with so many edits each. Nothing is timed yet.
pub fn loaded(world: &Rc<World>, payloads: usize, records: usize) -> Case {
    let start = Does::Start { text_base: TEXT_BASE, arena_base: ARENA_BASE, cpus: CPUS };
    let uploads = (0..payloads).map(|slot| upload(slot, Plan { slot, records, ..LEAST }.payload()));
    Case { world: world.clone(), setup: [start].into_iter().chain(uploads).collect(), calls: Vec::new() }
}

/// Eight payloads with the most edits each, the first seven applied.
pub fn seven_applied(world: &Rc<World>) -> Case {
    (0..7).fold(loaded(world, 8, RECORDS), |case, slot| case.after(held(slot, APPLY)).after(works(RECORDS)))
}

impl Case {
    /// The same after some more calls.
    pub fn after(mut self, calls: Vec<Does>) -> Case {
        self.setup.extend(calls);
        self
    }

    /// The same with these calls to be timed.
    pub fn timing(&self, calls: Vec<Does>) -> Case {
        Case { calls, ..self.clone() }
    }
}
