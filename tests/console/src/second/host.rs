//! A started loader with the memory that it is lent.

use differential::second::calls;
use differential::second::limits::{ARENA, IDS, NAME, SLOTS, UNDO};

/// All memory: zeros as it is lent.
pub struct Host {
    records: Vec<u8>,
    text: Vec<u8>,
    arena: Vec<u8>,
    undo: Vec<u8>,
    ids: Vec<u8>,
    build_id: Vec<u8>,
}

/// A loaded payload as the list has it: its name without the zero, status and result.
pub struct Entry {
    pub name: Vec<u8>,
    pub status: u32,
    pub result: i32,
}

/// A number of 4 bytes, the lowest first.
fn number(bytes: &[u8]) -> u32 {
    u32::from_le_bytes([bytes[0], bytes[1], bytes[2], bytes[3]])
}

/// 0 is an acceptance, any other answer a refusal's code.
fn accepted(code: u64) -> Result<(), u64> {
    match code {
        0 => Ok(()),
        _ => Err(code),
    }
}

impl Host {
    /// A fresh start-up on fresh memory.
    pub fn start(base: u64, size: usize, arena: u64, cpus: u32, id: Vec<u8>) -> Result<Host, u64> {
        let zeros = |size| vec![0; size];
        let mut host = Host {
            records: zeros(calls::records_size() as usize),
            text: zeros(size),
            arena: zeros(ARENA),
            undo: zeros(UNDO),
            ids: zeros(IDS),
            build_id: id,
        };
        let Host { records, text, arena: memory, undo, ids, build_id } = &mut host;
        accepted(calls::start(records, text, base, memory, arena, undo, ids, build_id, cpus))?;
        Ok(host)
    }

    pub fn upload(&mut self, name: &[u8], symbols: &[u8], file: &[u8]) -> Result<(), u64> {
        accepted(calls::upload(&mut self.records, &mut self.arena, &mut self.ids, name, symbols, file))
    }

    /// Status and result.
    pub fn get(&self, name: &[u8]) -> Result<(u32, i32), u64> {
        let mut out = [0; 8];
        accepted(calls::get(&self.records, name, &mut out))?;
        Ok((number(&out[..4]), number(&out[4..]) as i32))
    }

    /// The version and all payloads.
    pub fn list(&self) -> Result<(u32, Vec<Entry>), u64> {
        let (mut statuses, mut names, mut lengths) = ([0; 8 * SLOTS], [0; NAME * SLOTS], [0; 4 * SLOTS]);
        let mut out = [0; 12];
        let most = SLOTS as u32;
        accepted(calls::list(&self.records, 0, most, &mut statuses, &mut names, &mut lengths, &mut out))?;
        let entry = |at: usize| {
            let length = number(&lengths[4 * at..]) as usize;
            Entry {
                name: names[NAME * at..][..length - 1].to_vec(),
                status: number(&statuses[8 * at..]),
                result: number(&statuses[8 * at + 4..]) as i32,
            }
        };
        Ok((number(&out[8..]), (0..number(&out) as usize).map(entry).collect()))
    }

    pub fn act(&mut self, name: &[u8], command: u32, time: u32) -> Result<(), u64> {
        let Host { records, arena, undo, ids, build_id, .. } = self;
        accepted(calls::action(records, arena, undo, ids, build_id, name, command, time))
    }

    pub fn report(&mut self, cpu: u32) -> Result<(), u64> {
        accepted(calls::report(&mut self.records, cpu))
    }

    pub fn tick(&mut self) -> Result<(), u64> {
        accepted(calls::tick(&mut self.records))
    }

    pub fn work(&mut self) -> Result<(), u64> {
        accepted(calls::work(&mut self.records, &mut self.text, &mut self.undo))
    }

    /// How many payloads are loaded.
    pub fn loaded(&self) -> usize {
        self.list().map_or(0, |(_, entries)| entries.len())
    }
}
