//! Payloads that are valid but for one limit, which they pass by little.

use super::plan::Plan;
use super::{made, Input};
use crate::payloads::assemble::input_with;
use crate::rng::Rng;
use crate::second::limits::{FILE, ID, RECORDS};
use crate::second::Refusal;
use crate::stated::Stated;

/// What a payload has too much of: records, bytes of the dependency or of the id, bytes of the file.
#[derive(Clone, Copy, PartialEq, Eq)]
enum Limit {
    Records,
    Dependency,
    Id,
    File,
}

/// A payload that passes one limit, and its refusal.
pub fn payload_beyond(rng: &mut Rng) -> (Input, Stated) {
    let limit = rng.pick(&[Limit::Records, Limit::Dependency, Limit::Id, Limit::File]);
    let more = rng.pick(&[1, 1, 1, 2, 3, 4]);
    let (_, draft, assembled) = made(|rng| plan(limit, more, rng), rng);
    let mut file = assembled.file;
    if limit == Limit::File {
        let missing = FILE + more as usize - file.len();
        file.extend(rng.bytes(missing));
    }
    let refusal = match limit {
        Limit::Records => Refusal::section(22, draft.index("funcs")),
        Limit::Dependency => Refusal::section(22, draft.index("depends")),
        Limit::Id => Refusal::section(22, draft.index("build_id")),
        Limit::File => Refusal::nowhere(8),
    };
    let code = Some(refusal.code());
    (input_with(&draft, file), Stated { symbols: Some(0), file: code, prepare: code, bytes: Vec::new() })
}

fn plan(limit: Limit, more: u64, rng: &mut Rng) -> Plan {
    let (records, id) = (RECORDS as u64, ID as u64);
    let mut notes = [rng.between(1, id), rng.between(1, id)];
    let mut count = rng.between(1, 4);
    match limit {
        Limit::Records => count = records + more,
        Limit::Dependency => notes[0] = id + more,
        Limit::Id => notes[1] = id + more,
        Limit::File => (),
    }
    Plan::counted(count, Some(notes), false, rng)
}
