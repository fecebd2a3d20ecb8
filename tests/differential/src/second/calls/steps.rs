//! The edits of a job, one for each work step, in their order.

use super::state::{Loaded, State, APPLY, REPLACE, REVERT};

/// One step: an edit of a payload, by the payload's slot and the record's number.
#[derive(Clone, Copy, PartialEq, Eq, Debug)]
pub enum Step {
    TakeOff { slot: u32, record: usize },
    Lay { slot: u32, record: usize },
}

/// All steps of the job; none where a slot of it has no payload.
pub fn steps(state: &State) -> Option<Vec<Step>> {
    let slot = state.job.slot;
    let mut steps = Vec::new();
    let removed: Vec<u32> = match state.job.action {
        REVERT => vec![slot],
        REPLACE => state.applied().iter().rev().copied().collect(),
        _ => Vec::new(),
    };
    for slot in removed {
        let records = 0..count(state.in_slot(slot)?);
        steps.extend(records.rev().map(|record| Step::TakeOff { slot, record }));
    }
    if matches!(state.job.action, APPLY | REPLACE) {
        let records = 0..count(state.in_slot(slot)?);
        steps.extend(records.map(|record| Step::Lay { slot, record }));
    }
    Some(steps)
}

fn count(payload: &Loaded) -> usize {
    payload.edit_count as usize
}
