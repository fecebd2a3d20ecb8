//! The file's size and its ELF header.

use super::bytes::{field, inside};
use super::limits::{FILE, FILE_LEAST, SECTIONS};
use super::refusal::Refusal;

pub struct Header {
    /// Where the section table begins.
    pub table: usize,
    /// How many sections it has.
    pub count: usize,
    /// The index of the section that holds the section names; not checked here.
    pub names: usize,
}

/// Offset, width and value of the header fields that have one right value.
const FIXED: [(usize, usize, u64); 8] = [
    (0, 4, 0x464c_457f), // the magic number
    (4, 1, 2),           // class: 64 bits
    (5, 1, 1),           // data: little-endian
    (6, 1, 1),           // version of the identification
    (16, 2, 1),          // e_type: relocatable
    (18, 2, 62),         // e_machine: x86-64
    (20, 4, 1),          // e_version
    (58, 2, 64),         // e_shentsize
];

impl Header {
    pub fn read(file: &[u8]) -> Result<Header, Refusal> {
        let wrong = Refusal::nowhere(8);
        if !(FILE_LEAST..=FILE).contains(&file.len()) {
            return Err(wrong);
        }
        if FIXED.iter().any(|&(at, width, value)| field(file, at, width) != value) {
            return Err(wrong);
        }
        let (table, count) = (field(file, 40, 8), field(file, 60, 2));
        if !(1..=SECTIONS as u64).contains(&count) || !inside(table, 64 * count, file.len() as u64) {
            return Err(wrong);
        }
        Ok(Header { table: table as usize, count: count as usize, names: field(file, 62, 2) as usize })
    }
}
