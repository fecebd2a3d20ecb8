//! What start-up is told of the host, and whether the memory that it lends has its sizes.

use crate::second::limits::{ARENA, CPUS, ID, IDS, SLOT, UNDO};
use crate::second::prepare::Surroundings;

#[derive(Clone, Copy, Default, PartialEq, Eq, Debug)]
pub struct Host {
    pub text_base: u64,
    pub text_len: u64,
    pub arena_base: u64,
    pub build_id_len: u32,
    pub cpus: u32,
}

impl Host {
    /// Whether start-up takes these numbers.
    pub fn stands(&self) -> bool {
        let whole = 1u128 << 64;
        let (text, arena) = (u128::from(self.text_base), u128::from(self.arena_base));
        let (text_end, arena_end) = (text + u128::from(self.text_len), arena + ARENA as u128);
        (1..=16_777_216).contains(&self.text_len)
            && text_end <= whole
            && self.arena_base != 0
            && self.arena_base % 4_096 == 0
            && arena_end <= whole
            && (text_end <= arena || arena_end <= text)
            && (1..=ID as u32).contains(&self.build_id_len)
            && (1..=CPUS as u32).contains(&self.cpus)
    }

    /// What a payload in a slot is prepared against.
    pub fn around(&self, slot: usize) -> Surroundings {
        let slot_base = self.arena_base + (SLOT * slot) as u64;
        Surroundings { text_base: self.text_base, text_len: self.text_len, slot_base }
    }
}

/// Whether arena, undo store and id store have their sizes; those that a call is not given are left out.
pub fn sizes(arena: Option<&[u8]>, undo: Option<&[u8]>, ids: Option<&[u8]>) -> bool {
    let fits = |lent: Option<&[u8]>, size| lent.map_or(true, |bytes| bytes.len() == size);
    fits(arena, ARENA) && fits(undo, UNDO) && fits(ids, IDS)
}

#[cfg(test)]
mod tests {
    use super::*;

    #[test]
    fn what_start_up_takes() {
        let host = Host { text_base: 4_096, text_len: 4_096, arena_base: 8_192, build_id_len: 20, cpus: 4 };
        assert!(host.stands());
        assert!(Host { text_base: 8_192 + 65_536, ..host }.stands());
        assert!([1, 32, 33, 63, 64].iter().all(|length| Host { build_id_len: *length, ..host }.stands()));
        assert!(Host { text_base: u64::MAX, text_len: 1, ..host }.stands());
        assert!(Host { arena_base: 0u64.wrapping_sub(65_536), ..host }.stands());
        let refused = [
            Host { text_len: 0, ..host },
            Host { text_base: 1 << 30, text_len: (1 << 24) + 1, ..host },
            Host { text_base: 4_097, ..host },
            Host { text_base: 8_191 + 65_536, ..host },
            Host { text_base: u64::MAX, text_len: 2, ..host },
            Host { arena_base: 0, text_base: 1 << 20, ..host },
            Host { arena_base: 8_193, ..host },
            Host { arena_base: 0u64.wrapping_sub(61_440), ..host },
            Host { build_id_len: 0, ..host },
            Host { build_id_len: 65, ..host },
            Host { cpus: 0, ..host },
            Host { cpus: 65, ..host },
        ];
        assert!(refused.iter().all(|host| !host.stands()));
    }
}
