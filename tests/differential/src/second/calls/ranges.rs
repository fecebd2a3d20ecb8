//! Whether a state's numbers are in the ranges that document 01 names.

use super::state::{is_name, KeptEdit, Loaded, State, APPLIED, APPLY, CHECKED, REPLACE, REVERT};
use super::steps::steps;
use crate::second::bytes::inside;
use crate::second::limits::{ID, NAME, RECORDS, SLOTS, UNDO_RECORD};

pub fn in_range(state: &State) -> bool {
    let is_loaded = |slot: &u32| state.index_of_slot(*slot).is_some();
    state.host.stands()
        && state.payloads.iter().all(|payload| payload_in_range(payload, state.host.text_len))
        && state.applied().iter().all(is_loaded)
        && (state.job.action == 0 || is_loaded(&state.job.slot) && job_in_range(state))
}

fn payload_in_range(payload: &Loaded, text_len: u64) -> bool {
    let id_lengths = [payload.id_len, payload.dependency_len];
    (payload.slot as usize) < SLOTS
        && [CHECKED, APPLIED].contains(&payload.status)
        && payload.name_len as usize <= NAME
        && is_name(payload.name())
        && id_lengths.iter().all(|length| (1..=ID as u32).contains(length))
        && (1..=RECORDS as u32).contains(&payload.edit_count)
        && payload.edits().iter().all(|edit| edit_in_range(edit, text_len))
}

fn edit_in_range(edit: &KeptEdit, text_len: u64) -> bool {
    let length_fits = match edit.jump {
        Some(_) => edit.length == 5,
        None => (1..=UNDO_RECORD as u32).contains(&edit.length),
    };
    length_fits && inside(edit.offset.into(), edit.length.into(), text_len)
}

/// The numbers of a job whose slot has a payload, in a state whose payloads are in range.
fn job_in_range(state: &State) -> bool {
    let stack_fits = match state.job.action {
        REVERT => state.applied > 0,
        APPLY => state.applied < state.payloads.len(),
        REPLACE => true,
        _ => false,
    };
    let count = steps(state).map_or(0, |steps| steps.len());
    stack_fits && state.job.ticks > 0 && (state.job.steps as usize) < count
}
