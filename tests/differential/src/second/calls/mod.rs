//! The calls over a host's memory. The functions here are those of the C boundary, one to one: each is given the records
//! buffer, reads the state from it, and writes it back. The answer is 0 or the refusal's code. Bytes that are no state in
//! range get 22 from all but start-up.

mod actions;
pub mod codec;
pub mod host;
mod jobs;
mod queries;
mod ranges;
mod start;
pub mod state;
pub mod steps;

pub use start::Upload;

use super::code;
use super::refusal::Refusal;
use host::Host;
use state::State;

/// The state in range that the records are.
pub fn state_of(records: &[u8]) -> Option<State> {
    codec::read(records).filter(ranges::in_range)
}

/// Lets a call change the state. Also a refusal's change is written back.
fn change(records: &mut [u8], call: impl FnOnce(&mut State) -> Result<(), Refusal>) -> u64 {
    let mut state = match state_of(records) {
        Some(state) => state,
        None => return Refusal::nowhere(22).code(),
    };
    let answer = call(&mut state);
    records.copy_from_slice(&codec::bytes(&state));
    code(answer)
}

/// Lets a call read the state, and writes what it found to `out`, which has its size.
fn ask<const N: usize>(records: &[u8], out: &mut [u8], call: impl FnOnce(&State) -> Result<[u8; N], Refusal>) -> u64 {
    let state = match state_of(records) {
        Some(state) if out.len() == N => state,
        _ => return Refusal::nowhere(22).code(),
    };
    code(call(&state).map(|found| out.copy_from_slice(&found)))
}

/// Three numbers in 4 bytes each.
fn three(numbers: [u32; 3]) -> [u8; 12] {
    let mut bytes = [0; 12];
    bytes.chunks_mut(4).zip(numbers).for_each(|(four, number)| four.copy_from_slice(&number.to_le_bytes()));
    bytes
}

pub fn records_size() -> u64 {
    codec::SIZE as u64
}

#[allow(clippy::too_many_arguments)]
pub fn start(
    records: &mut [u8],
    text: &[u8],
    text_base: u64,
    arena: &mut [u8],
    arena_base: u64,
    undo: &mut [u8],
    ids: &mut [u8],
    build_id: &[u8],
    cpus: u32,
) -> u64 {
    if records.len() != codec::SIZE {
        return Refusal::nowhere(22).code();
    }
    let build_id_len = u32::try_from(build_id.len()).unwrap_or(u32::MAX);
    let host = Host { text_base, text_len: text.len() as u64, arena_base, build_id_len, cpus };
    let started = start::start(host, start::Lent { arena, undo, ids });
    code(started.map(|state| records.copy_from_slice(&codec::bytes(&state))))
}

pub fn upload(records: &mut [u8], arena: &mut [u8], ids: &mut [u8], name: &[u8], symbols: &[u8], file: &[u8]) -> u64 {
    change(records, |state| state.upload(arena, ids, Upload { name, symbols, file }))
}

pub fn get(records: &[u8], name: &[u8], out: &mut [u8]) -> u64 {
    ask(records, out, |state| state.get(name))
}

pub fn list(
    records: &[u8],
    idx: u32,
    nr: u32,
    statuses: &mut [u8],
    names: &mut [u8],
    lengths: &mut [u8],
    out: &mut [u8],
) -> u64 {
    ask(records, out, |state| state.list(idx, nr, [statuses, names, lengths]).map(three))
}

#[allow(clippy::too_many_arguments)]
pub fn action(
    records: &mut [u8],
    arena: &mut [u8],
    undo: &mut [u8],
    ids: &mut [u8],
    build_id: &[u8],
    name: &[u8],
    command: u32,
    time: u32,
) -> u64 {
    change(records, |state| state.action(actions::Lent { arena, undo, ids, build_id }, name, command, time))
}

pub fn report(records: &mut [u8], cpu: u32) -> u64 {
    change(records, |state| state.report(cpu))
}

pub fn tick(records: &mut [u8]) -> u64 {
    change(records, State::tick)
}

pub fn work(records: &mut [u8], text: &mut [u8], undo: &mut [u8]) -> u64 {
    change(records, |state| state.work(text, undo))
}

pub fn top_build_id(records: &[u8], build_id: &[u8], ids: &[u8], out: &mut [u8]) -> u64 {
    ask(records, out, |state| {
        let found = state.top_build_id(build_id, ids)?;
        Ok(three([u32::from(found.in_store), found.offset as u32, found.length as u32]))
    })
}
