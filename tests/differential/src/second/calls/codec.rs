//! The records buffer: the state as bytes. What no call looks at keeps its bytes.

use super::host::Host;
use super::state::{Job, KeptEdit, Loaded, State};
use crate::second::bytes::field;
use crate::second::limits::{CPUS, ID, NAME, RECORDS, SLOTS};

/// Where the CPUs' bytes, the stack and the payloads begin, and the buffer's size.
pub const HELD: usize = 68;
const STACK: usize = HELD + CPUS;
const PAYLOADS: usize = STACK + 4 * SLOTS;
pub const SIZE: usize = PAYLOADS + PAYLOAD * SLOTS;
/// Where a payload's dependency, the count of its edits and its edits begin in it, and its size: after the name stand six
/// numbers.
pub const DEPENDENCY: usize = NAME + 6 * 4;
pub const EDIT_COUNT: usize = DEPENDENCY + ID;
pub const EDITS: usize = EDIT_COUNT + 4;
const PAYLOAD: usize = EDITS + EDIT * RECORDS;
/// The size of an edit.
const EDIT: usize = 20;

/// Where an entry of the stack stands in the buffer.
pub const fn stack_at(entry: usize) -> usize {
    STACK + 4 * entry
}

/// Where the payload of a place begins in the buffer.
pub const fn payload_at(place: usize) -> usize {
    PAYLOADS + PAYLOAD * place
}

/// Where an edit of it begins.
pub const fn edit_at(place: usize, edit: usize) -> usize {
    payload_at(place) + EDITS + EDIT * edit
}

/// The state that the bytes are; none where they are no state, or one with more payloads than there are places.
/// Whether its numbers are in range is not asked here.
pub fn read(bytes: &[u8]) -> Option<State> {
    if bytes.len() != SIZE {
        return None;
    }
    let number = |at| field(bytes, at, 4) as u32;
    let host = Host {
        text_base: field(bytes, 0, 8),
        text_len: field(bytes, 8, 8),
        arena_base: field(bytes, 16, 8),
        build_id_len: number(24),
        cpus: number(28),
    };
    let (loaded, applied) = (field(bytes, 32, 8), field(bytes, 40, 8));
    if loaded > SLOTS as u64 || applied > loaded {
        return None;
    }
    let mut job = Job { action: number(52), slot: number(56), ticks: number(60), steps: number(64), ..Job::none() };
    for (held, byte) in job.held.iter_mut().zip(&bytes[HELD..STACK]) {
        *held = flag(*byte)?;
    }
    let mut stack = [0; SLOTS];
    stack.iter_mut().enumerate().for_each(|(at, slot)| *slot = number(stack_at(at)));
    let places = bytes[PAYLOADS..].chunks(PAYLOAD);
    let mut payloads = places.map(read_payload).collect::<Option<Vec<Loaded>>>()?;
    let unused = payloads.split_off(loaded as usize);
    Some(State { host, version: number(48), job, payloads, unused, applied: applied as usize, stack })
}

fn flag(byte: u8) -> Option<bool> {
    match byte {
        0 => Some(false),
        1 => Some(true),
        _ => None,
    }
}

fn read_payload(bytes: &[u8]) -> Option<Loaded> {
    let number = |at| field(bytes, at, 4) as u32;
    let mut payload = Loaded {
        name_len: number(128),
        slot: number(132),
        status: number(136),
        result: number(140),
        id_len: number(144),
        dependency_len: number(148),
        edit_count: number(EDIT_COUNT),
        ..Loaded::nothing()
    };
    payload.name.copy_from_slice(&bytes[..NAME]);
    payload.dependency.copy_from_slice(&bytes[DEPENDENCY..EDIT_COUNT]);
    for (edit, bytes) in payload.edits.iter_mut().zip(bytes[EDITS..].chunks(EDIT)) {
        *edit = read_edit(bytes)?;
    }
    Some(payload)
}

fn read_edit(bytes: &[u8]) -> Option<KeptEdit> {
    let jump = match (field(bytes, 8, 4), field(bytes, 12, 8)) {
        (0, 0) => None,
        (1, displacement) => Some(displacement),
        _ => return None,
    };
    Some(KeptEdit { offset: field(bytes, 0, 4) as u32, length: field(bytes, 4, 4) as u32, jump })
}

/// The bytes of a state.
pub fn bytes(state: &State) -> Vec<u8> {
    let host = &state.host;
    let mut bytes = Vec::with_capacity(SIZE);
    bytes.extend([host.text_base, host.text_len, host.arena_base].map(u64::to_le_bytes).concat());
    bytes.extend([host.build_id_len, host.cpus].map(u32::to_le_bytes).concat());
    bytes.extend([state.payloads.len() as u64, state.applied as u64].map(u64::to_le_bytes).concat());
    let job = &state.job;
    bytes.extend([state.version, job.action, job.slot, job.ticks, job.steps].map(u32::to_le_bytes).concat());
    bytes.extend(job.held.map(u8::from));
    bytes.extend(state.stack.map(u32::to_le_bytes).concat());
    for payload in state.payloads.iter().chain(&state.unused) {
        write_payload(payload, &mut bytes);
    }
    bytes
}

fn write_payload(payload: &Loaded, bytes: &mut Vec<u8>) {
    bytes.extend(payload.name);
    let Loaded { name_len, slot, status, result, id_len, dependency_len, .. } = *payload;
    bytes.extend([name_len, slot, status, result, id_len, dependency_len].map(u32::to_le_bytes).concat());
    bytes.extend(payload.dependency);
    bytes.extend(payload.edit_count.to_le_bytes());
    for edit in &payload.edits {
        bytes.extend([edit.offset, edit.length, u32::from(edit.jump.is_some())].map(u32::to_le_bytes).concat());
        bytes.extend(edit.jump.unwrap_or(0).to_le_bytes());
    }
}

#[cfg(test)]
mod tests {
    use super::*;

    #[test]
    fn sizes_add_up() {
        assert_eq!((HELD, STACK, PAYLOADS, PAYLOAD, SIZE), (68, 132, 164, 860, 7_044));
        assert_eq!((DEPENDENCY, EDIT_COUNT, EDITS), (152, 216, 220));
        assert_eq!(bytes(&State::started(Host::default())), vec![0; SIZE]);
    }

    /// A buffer that is a state, with another number in every place that may have one.
    fn filled() -> Vec<u8> {
        let mut buffer: Vec<u8> = (0..SIZE).map(|at| (at * 7 % 251 + 1) as u8).collect();
        buffer[32..48].copy_from_slice(&[2, 0, 0, 0, 0, 0, 0, 0, 1, 0, 0, 0, 0, 0, 0, 0]);
        buffer[HELD..STACK].iter_mut().for_each(|byte| *byte &= 1);
        for place in buffer[PAYLOADS..].chunks_mut(PAYLOAD) {
            for (number, edit) in place[EDITS..].chunks_mut(EDIT).enumerate() {
                edit[8..12].copy_from_slice(&[(number % 2) as u8, 0, 0, 0]);
                if number % 2 == 0 {
                    edit[12..].fill(0);
                }
            }
        }
        buffer
    }

    #[test]
    fn bytes_to_state_and_back() {
        let buffer = filled();
        let state = read(&buffer).unwrap();
        assert_eq!((state.payloads.len(), state.unused.len(), state.applied), (2, 6, 1));
        assert_eq!(bytes(&state), buffer);
    }

    #[test]
    fn bytes_that_are_no_state() {
        let last_edit = SIZE - EDIT;
        // a CPU's byte, an edit's kind, a displacement of no-ops; also behind the counts
        for (at, value) in [
            (68, 2),
            (131, 255),
            (PAYLOADS + EDITS + 8, 2),
            (PAYLOADS + EDITS + 11, 1),
            (PAYLOADS + EDITS + 12, 1),
            (PAYLOADS + EDITS + 19, 1),
            (last_edit + 9, 1),
            (last_edit - EDIT + 19, 9),
        ] {
            let mut buffer = filled();
            buffer[at] = value;
            assert_eq!(read(&buffer), None, "byte {at}");
        }
        assert_eq!(read(&filled()[1..]), None);
        assert_eq!(read(&[filled(), vec![0]].concat()), None);
    }
}
