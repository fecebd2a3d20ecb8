//! What is stated of an input beforehand: answers, and bytes of the buffers after acceptance.

use crate::second::limits::{EDIT_ENTRY, EDIT_TABLE, ID, SUMMARY_DEPENDENCY, SUMMARY_ID};

/// Answers by call where they are stated, and bytes that the buffers have where the payload is accepted (buffer,
/// offset, bytes): buffer 0 is the image, 1 the edits, 2 the summary.
#[derive(Clone, Debug, Default)]
pub struct Stated {
    pub symbols: Option<u64>,
    pub file: Option<u64>,
    pub prepare: Option<u64>,
    pub bytes: Vec<(usize, usize, Vec<u8>)>,
}

impl Stated {
    /// Accepted by every call.
    pub fn accepted() -> Stated {
        Stated { symbols: Some(0), file: Some(0), prepare: Some(0), bytes: Vec::new() }
    }

    /// The placed length in the summary.
    pub fn placed(&mut self, length: u32) {
        self.bytes.push((2, 0, length.to_le_bytes().to_vec()));
    }

    /// The count of edits in the summary, and zeros in the entries after them.
    pub fn edit_count(&mut self, count: usize) {
        self.bytes.push((2, 4, (count as u32).to_le_bytes().to_vec()));
        self.bytes.push((1, EDIT_ENTRY * count, vec![0; EDIT_TABLE - EDIT_ENTRY * count]));
    }

    /// One whole entry of the edits.
    pub fn edit(&mut self, index: usize, address: u64, bytes: &[u8]) {
        let mut entry = [&address.to_le_bytes()[..], &(bytes.len() as u32).to_le_bytes(), bytes].concat();
        entry.resize(EDIT_ENTRY, 0);
        self.bytes.push((1, EDIT_ENTRY * index, entry));
    }

    pub fn build_id(&mut self, id: &[u8]) {
        self.id(8, SUMMARY_ID, id);
    }

    pub fn dependency(&mut self, id: &[u8]) {
        self.id(12, SUMMARY_DEPENDENCY, id);
    }

    fn id(&mut self, length_at: usize, at: usize, id: &[u8]) {
        let mut kept = id.to_vec();
        kept.resize(ID, 0);
        self.bytes.push((2, length_at, (id.len() as u32).to_le_bytes().to_vec()));
        self.bytes.push((2, at, kept));
    }
}
