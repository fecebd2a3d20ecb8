//! Valid payloads of wide variety from a seed, with their symbol lists and surroundings, and what a loader must make
//! of them.

mod beyond;
pub mod lists;
mod plan;
mod relocations;
mod sections;
mod surroundings;

use super::assemble::{assemble, header_field, input_with, Assembled};
use super::draft::{Contents, Draft, Symbol};
use super::Input;
use crate::rng::Rng;
use crate::second::limits::{BUFFERS, FILE};
use crate::second::Surroundings;
use crate::stated::Stated;
pub use beyond::payload_beyond;
use plan::Plan;

/// A valid payload: its input, where things stand in the file, and what is stated of it.
pub struct Made {
    pub input: Input,
    pub assembled: Assembled,
    pub stated: Stated,
}

/// A valid payload.
pub fn payload(rng: &mut Rng) -> Made {
    make(|rng| Plan::new(false, rng), rng)
}

/// A payload whose only fault may be that jumps don't reach their new code.
pub fn edge_payload(rng: &mut Rng) -> Input {
    make(|rng| Plan::new(true, rng), rng).input
}

/// A valid payload for a given slot near the text, with so many records (or as many as the text has room for) and a dependency
/// and an id of these lengths.
pub fn payload_within(around: Surroundings, records: u64, notes: [u64; 2], rng: &mut Rng) -> Made {
    make(|rng| Plan::within(around, records, notes, rng), rng)
}

fn make(plan: impl Fn(&mut Rng) -> Plan, rng: &mut Rng) -> Made {
    let (plan, draft, mut assembled) = made(plan, rng);
    lengthen(&mut assembled.file, rng);
    let input = input_with(&draft, assembled.file.clone());
    Made { input, assembled, stated: state(&draft, &plan) }
}

/// A plan, its draft, and the bytes of it: no more than a file may have.
fn made(plan: impl Fn(&mut Rng) -> Plan, rng: &mut Rng) -> (Plan, Draft, Assembled) {
    loop {
        let plan = plan(rng);
        let mut draft = draft(&plan, rng);
        noise(&mut draft, rng);
        let assembled = assemble(&draft);
        if assembled.file.len() <= FILE {
            return (plan, draft, assembled);
        }
    }
}

/// Adds bytes that belong to nothing after a file, sometimes up to the most that a file may have.
fn lengthen(file: &mut Vec<u8>, rng: &mut Rng) {
    let room = FILE - file.len();
    let more = match rng.below(20) {
        0 => room,
        1 | 2 => rng.index(room + 1),
        3 => rng.index(room.min(16) + 1),
        _ => 0,
    };
    file.extend(rng.bytes(more));
}

fn draft(plan: &Plan, rng: &mut Rng) -> Draft {
    let mut draft = Draft {
        sections: sections::sections(plan, rng),
        symbols: vec![Symbol::new(b"", super::Ref::Number(0), 0)],
        layout: if rng.one_in(8) { 0 } else { rng.number() },
        list: plan.list.clone(),
        list_bytes: None,
        text_base: plan.around.text_base,
        text_len: plan.around.text_len,
        slot_base: plan.around.slot_base,
        buffers: BUFFERS,
        changes: Vec::new(),
    };
    sections::fit(&mut draft, rng);
    relocations::fill(&mut draft, plan, rng);
    draft
}

/// What a loader must make of the payload.
fn state(draft: &Draft, plan: &Plan) -> Stated {
    let mut stated = Stated::accepted();
    stated.placed(draft.placement().1 as u32);
    stated.edit_count(plan.records.len());
    for (index, record) in plan.records.iter().enumerate() {
        stated.edit(index, record.old, &record.edit(draft));
    }
    for section in &draft.sections {
        if let (role @ ("depends" | "build_id"), Contents::Bytes(note)) = (section.role, &section.contents) {
            let id = &note[16..16 + note[4] as usize];
            if role == "depends" {
                stated.dependency(id);
            } else {
                stated.build_id(id);
            }
        }
    }
    stated
}

/// Sets what document 01 doesn't consult to anything.
fn noise(draft: &mut Draft, rng: &mut Rng) {
    for field in header_field::FREE {
        if rng.one_in(2) {
            draft.header(field, rng.number());
        }
    }
    for section in &mut draft.sections {
        if rng.one_in(4) {
            section.addr = rng.number();
        }
        if !matches!(section.kind, 2 | 4) && rng.one_in(4) {
            section.link = super::Ref::Number(rng.number() as u32);
            section.info = super::Ref::Number(rng.number() as u32);
            section.entry_size = rng.number();
        }
        if section.kind == 2 {
            section.info = super::Ref::Number(rng.number() as u32);
        }
        if section.kind == 0 && rng.one_in(2) {
            (section.flags, section.align) = (rng.number(), rng.number());
            section.contents = Contents::Nothing(rng.number());
        }
    }
}

#[cfg(test)]
mod tests {
    use super::*;
    use crate::alone::faults;

    #[test]
    fn every_random_payload_is_accepted_as_stated() {
        for seed in 0..3000 {
            let made = payload(&mut Rng::new(seed));
            assert_eq!(faults(&made.input, &made.stated), Vec::<String>::new(), "seed {seed}");
        }
    }

    #[test]
    fn every_payload_beyond_a_limit_is_refused_as_stated() {
        for seed in 0..1000 {
            let (input, stated) = payload_beyond(&mut Rng::new(seed));
            assert_eq!(faults(&input, &stated), Vec::<String>::new(), "seed {seed}");
        }
    }

    #[test]
    fn random_payloads_vary() {
        let mut counts = std::collections::BTreeSet::new();
        let (mut longest, mut full, mut most) = (0, 0, [0; 3]);
        for seed in 0..3000 {
            let made = payload(&mut Rng::new(seed));
            for ((at, value), times) in [(4, 32), (8, 64), (12, 64u32)].into_iter().zip(&mut most) {
                *times += usize::from(made.stated.bytes.contains(&(2, at, value.to_le_bytes().to_vec())));
            }
            counts.insert(made.assembled.roles.len());
            longest = longest.max(made.input.file.len());
            full += usize::from(made.stated.bytes.contains(&(2, 0, 8192u32.to_le_bytes().to_vec())));
        }
        assert_eq!((counts.iter().next(), counts.iter().last()), (Some(&6), Some(&64)));
        assert_eq!(longest, 32_768);
        assert!(full > 20, "only {full} payloads fill their slot");
        assert!(most.iter().all(|times| *times > 100), "so many have 32 records, ids and dependencies of 64: {most:?}");
    }
}
