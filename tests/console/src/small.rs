//! A small payload: one function of the text gets new code, `mov $n,%eax; ret`. It has no more sections than a payload with
//! new code of its own must have, and the section table comes first, so that it is plain where things stand:
//!
//!     0   header
//!    64   section table: section i at 64 + 64 i
//!   576   1 .text, 6 bytes
//!   584   2 .livepatch.funcs: one record
//!   648   3 .rela.livepatch.funcs: one entry, which stores the address of .text in the record's new_addr
//!   672   4 .note.gnu.build-id, an id of 4 bytes
//!   692   5 .livepatch.depends, an id of 4 bytes
//!   712   6 .symtab: symbol 0, and the start of .text
//!   760   7 .strtab: the names of all sections

/// What a small payload is made of.
#[derive(Clone, Copy)]
pub struct Small {
    pub id: [u8; 4],
    pub depends: [u8; 4],
    /// The address of the function that is changed. It has 6 bytes, as its new code has.
    pub old: u64,
    /// What the new code returns.
    pub returns: u8,
}

/// Where things stand in the file.
pub mod at {
    pub const TABLE: usize = 64;
    pub const TEXT: usize = 576;
    pub const RECORD: usize = 584;
    pub const ENTRY: usize = 648;
    pub const ID: usize = 672;
    pub const DEPENDS: usize = 692;
    pub const SYMBOLS: usize = 712;
    pub const NAMES: usize = 760;
}

const NAMES: &[u8] = b"\0.text\0.rela.livepatch.funcs\0.note.gnu.build-id\0.livepatch.depends\0.symtab\0.strtab\0";

/// A section: where its name stands among the names, type, flags, link, info, alignment, size of an entry.
const SECTIONS: [[u64; 7]; 8] = [
    [0; 7],
    [1, 1, 6, 0, 0, 16, 0],
    [12, 1, 3, 0, 0, 8, 0],
    [7, 4, 0x40, 6, 2, 8, 24],
    [29, 7, 2, 0, 0, 4, 0],
    [48, 7, 2, 0, 0, 4, 0],
    [67, 2, 0, 7, 2, 8, 24],
    [75, 3, 0, 0, 0, 1, 0],
];

/// Numbers of these widths, one after the other, lowest byte first.
fn numbers(fields: &[(u64, usize)]) -> Vec<u8> {
    fields.iter().flat_map(|(value, width)| value.to_le_bytes()[..*width].to_vec()).collect()
}

fn header() -> Vec<u8> {
    let rest = [(1, 2), (62, 2), (1, 4), (0, 8), (0, 8), (at::TABLE as u64, 8), (0, 4), (64, 2), (0, 4), (64, 2)];
    let counts = [(SECTIONS.len() as u64, 2), (SECTIONS.len() as u64 - 1, 2)];
    [b"\x7fELF\x02\x01\x01\0\0\0\0\0\0\0\0\0".to_vec(), numbers(&rest), numbers(&counts)].concat()
}

fn section([name, kind, flags, link, info, align, entry]: [u64; 7], offset: usize, size: usize) -> Vec<u8> {
    let place = [(0, 8), (offset as u64, 8), (size as u64, 8)];
    [
        numbers(&[(name, 4), (kind, 4), (flags, 8)]),
        numbers(&place),
        numbers(&[(link, 4), (info, 4), (align, 8), (entry, 8)]),
    ]
    .concat()
}

fn note(id: [u8; 4]) -> Vec<u8> {
    [numbers(&[(4, 4), (4, 4), (3, 4)]), b"GNU\0".to_vec(), id.to_vec()].concat()
}

impl Small {
    /// The file.
    pub fn file(&self) -> Vec<u8> {
        let record = numbers(&[(0, 8), (0, 8), (self.old, 8), (6, 4), (6, 4), (1, 8), (0, 8), (0, 8), (0, 8)]);
        let symbol = [(0, 4), (3, 1), (0, 1), (1, 2), (0, 8), (0, 8)];
        let contents: [(usize, Vec<u8>); 8] = [
            (0, Vec::new()),
            (at::TEXT, vec![0xb8, self.returns, 0, 0, 0, 0xc3]),
            (at::RECORD, record),
            (at::ENTRY, numbers(&[(8, 8), (1 << 32 | 1, 8), (0, 8)])),
            (at::ID, note(self.id)),
            (at::DEPENDS, note(self.depends)),
            (at::SYMBOLS, [vec![0; 24], numbers(&symbol)].concat()),
            (at::NAMES, NAMES.to_vec()),
        ];
        let mut file = header();
        for (fields, (offset, bytes)) in SECTIONS.iter().zip(&contents) {
            file.extend(section(*fields, *offset, bytes.len()));
        }
        for (offset, bytes) in &contents[1..] {
            file.resize(*offset, 0);
            file.extend(bytes);
        }
        file
    }
}

/// A symbol list without entries.
pub const NO_SYMBOLS: [u8; 7] = [0, 0, 0, 3, 1, 0, 0];

/// Bytes in hexadecimal.
pub fn hex(bytes: &[u8]) -> String {
    let digit = |number: u8| char::from(b"0123456789abcdef"[usize::from(number)]);
    bytes.iter().flat_map(|byte| [digit(byte >> 4), digit(byte & 15)]).collect()
}

#[cfg(test)]
mod tests {
    use super::*;
    use differential::second::{prepare, Surroundings};

    #[test]
    fn it_is_accepted() {
        let small = Small { id: *b"own!", depends: *b"hype", old: 0x10_0040, returns: 2 };
        let around = Surroundings { text_base: 0x10_0000, text_len: 4_096, slot_base: 0x20_2000 };
        let prepared = prepare(&small.file(), &NO_SYMBOLS, &around).unwrap();
        assert_eq!((&prepared.build_id[..], &prepared.dependency[..]), (&b"own!"[..], &b"hype"[..]));
        assert_eq!(prepared.edits[0].address, 0x10_0040);
        // 0x202000 - (0x100040 + 5)
        assert_eq!(prepared.edits[0].bytes, [0xe9, 0xbb, 0x1f, 0x10, 0]);
        assert_eq!(prepared.placed[..6], [0xb8, 2, 0, 0, 0, 0xc3]);
    }
}
