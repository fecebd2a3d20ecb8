//! What the loader keeps between calls.

use super::host::Host;
use crate::second::limits::{CPUS, ID, NAME, RECORDS, SLOTS};

/// The status of a payload.
pub const CHECKED: u32 = 1;
pub const APPLIED: u32 = 2;

/// Actions.
pub const UNLOAD: u32 = 1;
pub const REVERT: u32 = 2;
pub const APPLY: u32 = 3;
pub const REPLACE: u32 = 4;

/// An edit as it is kept: where in the text it goes, and what it writes there.
#[derive(Clone, Copy, Default, PartialEq, Eq, Debug)]
pub struct KeptEdit {
    pub offset: u32,
    pub length: u32,
    /// The displacement of a jump; none where the edit is no-ops.
    pub jump: Option<u64>,
}

impl KeptEdit {
    pub fn bytes(&self) -> Vec<u8> {
        match self.jump {
            Some(displacement) => [&[0xe9], &displacement.to_le_bytes()[..4]].concat(),
            None => vec![0x90; self.length as usize],
        }
    }
}

/// A loaded payload. Its placed bytes are in the arena, its id is in the id store.
#[derive(Clone, PartialEq, Eq, Debug)]
pub struct Loaded {
    pub name: [u8; NAME],
    pub name_len: u32,
    pub slot: u32,
    pub status: u32,
    /// The last result, negated.
    pub result: u32,
    pub id_len: u32,
    pub dependency_len: u32,
    pub dependency: [u8; ID],
    pub edit_count: u32,
    pub edits: [KeptEdit; RECORDS],
}

impl Loaded {
    /// What stands where no payload is.
    pub fn nothing() -> Loaded {
        Loaded {
            name: [0; NAME],
            name_len: 0,
            slot: 0,
            status: 0,
            result: 0,
            id_len: 0,
            dependency_len: 0,
            dependency: [0; ID],
            edit_count: 0,
            edits: [KeptEdit::default(); RECORDS],
        }
    }

    pub fn edits(&self) -> &[KeptEdit] {
        &self.edits[..self.edit_count as usize]
    }

    pub fn dependency(&self) -> &[u8] {
        &self.dependency[..self.dependency_len as usize]
    }

    pub fn name(&self) -> &[u8] {
        &self.name[..self.name_len as usize]
    }
}

/// The one job.
#[derive(Clone, PartialEq, Eq, Debug)]
pub struct Job {
    /// 0 where there is none.
    pub action: u32,
    pub slot: u32,
    pub ticks: u32,
    pub steps: u32,
    pub held: [bool; CPUS],
}

impl Job {
    pub fn none() -> Job {
        Job { action: 0, slot: 0, ticks: 0, steps: 0, held: [false; CPUS] }
    }
}

/// All that is kept. Behind the loaded payloads and behind the applied slots stand entries that no call looks at.
#[derive(Clone, PartialEq, Eq, Debug)]
pub struct State {
    pub host: Host,
    pub version: u32,
    pub job: Job,
    pub payloads: Vec<Loaded>,
    pub unused: Vec<Loaded>,
    pub applied: usize,
    pub stack: [u32; SLOTS],
}

impl State {
    /// What an accepted start-up leaves.
    pub fn started(host: Host) -> State {
        let unused = vec![Loaded::nothing(); SLOTS];
        State { host, version: 0, job: Job::none(), payloads: Vec::new(), unused, applied: 0, stack: [0; SLOTS] }
    }

    /// The slots of the applied payloads, first applied first.
    pub fn applied(&self) -> &[u32] {
        &self.stack[..self.applied]
    }

    /// The slot of the payload that was applied last.
    pub fn top(&self) -> Option<u32> {
        self.applied().last().copied()
    }

    /// The index of the payload in a slot: the first, where records say that there are several.
    pub fn index_of_slot(&self, slot: u32) -> Option<usize> {
        self.payloads.iter().position(|payload| payload.slot == slot)
    }

    pub fn index_of_name(&self, name: &[u8]) -> Option<usize> {
        self.payloads.iter().position(|payload| payload.name() == name)
    }

    pub fn in_slot(&self, slot: u32) -> Option<&Loaded> {
        self.payloads.iter().find(|payload| payload.slot == slot)
    }

    /// Whether every CPU is held.
    pub fn complete(&self) -> bool {
        self.job.held[..self.host.cpus as usize].iter().all(|held| *held)
    }
}

/// Whether the bytes are a name: 2 to 128 of them, the last zero and no other.
pub fn is_name(name: &[u8]) -> bool {
    (2..=NAME).contains(&name.len()) && name.iter().position(|byte| *byte == 0) == Some(name.len() - 1)
}

#[cfg(test)]
mod tests {
    use super::*;

    #[test]
    fn names() {
        let long = [vec![b'x'; 127], vec![0]].concat();
        assert!(is_name(b"a\0") && is_name(b"p1\0") && is_name(&long));
        let refused: [&[u8]; 6] = [b"", b"\0", b"a", b"\0\0", b"a\0b\0", b"ab"];
        assert!(refused.iter().all(|name| !is_name(name)));
        assert!(!is_name(&[b"x", &long[..]].concat()));
    }

    #[test]
    fn edits_as_bytes() {
        let edit = |length, jump| KeptEdit { offset: 7, length, jump }.bytes();
        assert_eq!(edit(5, Some(0u64.wrapping_sub(2))), [0xe9, 0xfe, 0xff, 0xff, 0xff]);
        assert_eq!(edit(3, None), [0x90; 3]);
    }
}
