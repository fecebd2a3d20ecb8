//! The two note sections.

use super::bytes::{field, rounded_up};
use super::limits::ID;
use super::refusal::Refusal;
use super::sections::Section;

/// The descriptions of the note sections, each with its section's index, in index order.
pub fn read_notes(file: &[u8], sections: &[Section]) -> Result<Vec<(usize, Vec<u8>)>, Refusal> {
    let notes = sections.iter().filter(|section| section.kind.is_note());
    notes
        .map(|section| match description(section.contents(file)) {
            Some(bytes) => Ok((section.index, bytes.to_vec())),
            None => Err(Refusal::section(22, section.index)),
        })
        .collect()
}

/// The description of the one note that the bytes are.
pub fn description(note: &[u8]) -> Option<&[u8]> {
    let head = note.get(..16)?;
    let length = field(head, 4, 4);
    let right_head = field(head, 0, 4) == 4 && field(head, 8, 4) == 3 && head[12..] == *b"GNU\0";
    if !right_head || !(1..=ID as u64).contains(&length) || note.len() as u64 != 16 + rounded_up(length, 4) {
        return None;
    }
    let (description, padding) = note[16..].split_at(length as usize);
    padding.iter().all(|byte| *byte == 0).then_some(description)
}

#[cfg(test)]
mod tests {
    use super::*;

    fn note(length: u32, described: usize) -> Vec<u8> {
        let mut note = [4u32.to_le_bytes(), length.to_le_bytes(), 3u32.to_le_bytes(), *b"GNU\0"].concat();
        note.resize(16 + described, 0xaa);
        note.resize(rounded_up(note.len() as u64, 4) as usize, 0);
        note
    }

    #[test]
    fn k7() {
        assert_eq!(note(20, 20).len(), 36);
        assert_eq!(description(&note(20, 20)), Some(&[0xaa; 20][..]));
        assert_eq!(note(1, 1).len(), 20);
        assert_eq!(description(&note(1, 1)), Some(&[0xaa][..]));
        assert_eq!(description(&note(1, 1)[..17]), None);
        assert_eq!(description(&note(65, 65)), None);
        assert_eq!(description(&note(64, 64)), Some(&[0xaa; 64][..]));
    }
}
