//! The limits of document 01, each once, and the sizes that follow from them.

/// Bytes of a file, least and most.
pub const FILE_LEAST: usize = 64;
pub const FILE: usize = 32_768;

/// Most sections and most function records of a payload.
pub const SECTIONS: usize = 64;
pub const RECORDS: usize = 32;

/// Most bytes of an id: a payload's, a dependency, the hypervisor's build-id.
pub const ID: usize = 64;

/// Most bytes of a name with its zero.
pub const NAME: usize = 128;

/// Most CPUs.
pub const CPUS: usize = 64;

/// Slots, and the bytes of one: as many may be placed.
pub const SLOTS: usize = 8;
pub const SLOT: usize = 8_192;

/// Most bytes that an edit covers: so many are saved for each record.
pub const UNDO_RECORD: usize = 31;

/// The memory that a host lends: the arena, the undo store and a slot's part of it, the id store.
pub const ARENA: usize = SLOT * SLOTS;
pub const UNDO_SLOT: usize = UNDO_RECORD * RECORDS;
pub const UNDO: usize = UNDO_SLOT * SLOTS;
pub const IDS: usize = ID * SLOTS;

/// Most bytes of a note section: its head and an id.
pub const NOTE: usize = 16 + ID;

/// An entry of the edit table, and the table.
pub const EDIT_ENTRY: usize = 48;
pub const EDIT_TABLE: usize = EDIT_ENTRY * RECORDS;

/// Where the summary has the payload's id and its dependency, and the summary's size.
pub const SUMMARY_ID: usize = 16;
pub const SUMMARY_DEPENDENCY: usize = SUMMARY_ID + ID;
pub const SUMMARY: usize = SUMMARY_DEPENDENCY + ID;

/// The lengths of the image, the edit table and the summary.
pub const BUFFERS: [usize; 3] = [SLOT, EDIT_TABLE, SUMMARY];

#[cfg(test)]
mod tests {
    use super::*;

    #[test]
    fn the_papers_numbers() {
        assert_eq!((FILE_LEAST, FILE, SECTIONS, RECORDS, ID), (64, 32_768, 64, 32, 64));
        assert_eq!((ARENA, UNDO, IDS), (65_536, 7_936, 512));
        assert_eq!((UNDO_SLOT, NOTE), (992, 80));
        assert_eq!(BUFFERS, [8_192, 1_536, 144]);
        assert_eq!((SUMMARY_ID, SUMMARY_DEPENDENCY), (16, 80));
    }
}
