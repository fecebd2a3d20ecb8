//! The second loader by itself in random sequences, held against document 01's ledger; for the unit tests.
//!
//! "Its text is the start-up text with the laid edits over it, in order. Arena and stores follow as above, saved bytes being those
//! an edit covered when it was laid."

use super::driver::{Driver, Ground};
use super::loader::second;
use super::memory::Memory;
use crate::rng::Rng;
use crate::second::calls::state::State;
use crate::second::limits::{ID, RECORDS, SLOT, UNDO, UNDO_RECORD};

/// The edits that are laid, by slot and record, in order: those of the stack, and what the job has done so far.
fn laid(state: &State) -> Vec<(u32, usize)> {
    let records = |slot: u32| (0..state.in_slot(slot).unwrap().edits().len()).map(move |record| (slot, record));
    let mut laid: Vec<(u32, usize)> = state.applied().iter().flat_map(|slot| records(*slot)).collect();
    let removals = match state.job.action {
        2 => records(state.job.slot).len(),
        4 => laid.len(),
        _ => 0,
    };
    let done = state.job.steps as usize;
    laid.truncate(laid.len() - removals.min(done));
    if state.job.action > 2 {
        laid.extend(records(state.job.slot).take(done.saturating_sub(removals)));
    }
    laid
}

/// What is not as the ledger has it.
fn faults(state: &State, memory: &Memory, start: &[u8]) -> Vec<&'static str> {
    let (mut text, mut undo) = (start.to_vec(), vec![0; UNDO]);
    for (slot, record) in laid(state) {
        let edit = &state.in_slot(slot).unwrap().edits()[record];
        let (from, length) = (edit.offset as usize, edit.length as usize);
        let saved = UNDO_RECORD * (RECORDS * slot as usize + record);
        undo[saved..saved + length].copy_from_slice(&text[from..from + length]);
        text[from..from + length].copy_from_slice(&edit.bytes());
    }
    let free = |slot: &usize| state.index_of_slot(*slot as u32).is_none();
    let zero =
        |bytes: &[u8], size: usize, slot: usize| bytes[size * slot..size * (slot + 1)].iter().all(|byte| *byte == 0);
    let (arena, ids) = (memory.arena.inner(), memory.ids.inner());
    let on_stack = |slot: u32| state.applied().contains(&slot);
    let rules = [
        ("the text", memory.text.inner() == text),
        ("the undo store", memory.undo.inner() == undo),
        ("free slots", (0..8).filter(free).all(|slot| zero(arena, SLOT, slot) && zero(ids, ID, slot))),
        ("statuses", state.payloads.iter().all(|payload| (payload.status == 2) == on_stack(payload.slot))),
        ("what is unused", state.unused.iter().all(|place| place.name_len == 0 && place.edits[0].length == 0)),
        ("the job's result", state.job.action == 0 || state.in_slot(state.job.slot).unwrap().result == 11),
    ];
    rules.iter().filter(|(_, holds)| !holds).map(|(what, _)| *what).collect()
}

#[test]
fn random_sequences_keep_the_ledger() {
    let mut rng = Rng::new(1);
    let (mut steps, mut deepest) = (0, 0);
    for number in 0..400 {
        let ground = Ground::new(&mut rng);
        let mut driver = Driver::new(&ground, &[second()], rng.number());
        for _ in 0..driver.begin() {
            driver.turn();
            assert_eq!(driver.session.fault, None, "sequence {number}");
            if let Some(state) = &driver.session.state {
                let found = faults(state, driver.session.memory(), &ground.world.text);
                assert_eq!(found, Vec::<&str>::new(), "sequence {number}");
                steps = steps.max(state.job.steps);
                deepest = deepest.max(state.applied);
            }
        }
    }
    assert!(steps > 200 && deepest == 8, "{steps} steps, {deepest} applied");
}
