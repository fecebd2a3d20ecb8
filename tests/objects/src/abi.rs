//! `urddolwy_prepare` over the C ABI.

pub const IMAGE: usize = 8192;
pub const EDIT: usize = 48;
pub const EDITS: usize = 32;
/// The most bytes of an id.
pub const ID: usize = 64;
pub const SUMMARY: usize = 16 + 2 * ID;

#[path = "../../boundary.rs"]
mod boundary;

pub use boundary::Place;

/// An answer and the three buffers after it.
pub struct Prepared {
    pub answer: u64,
    pub image: Vec<u8>,
    pub edits: Vec<u8>,
    pub summary: Vec<u8>,
}

/// Prepares a payload, in buffers that hold a pattern before the call: a byte that is not written shows.
pub fn prepare(file: &[u8], list: &[u8], place: Place) -> Prepared {
    let (mut image, mut edits, mut summary) = (vec![0xa5; IMAGE], vec![0xa5; EDITS * EDIT], vec![0xa5; SUMMARY]);
    let answer = boundary::prepare(file, list, place, [&mut image, &mut edits, &mut summary]);
    Prepared { answer, image, edits, summary }
}

/// An answer in words.
pub fn in_words(answer: u64) -> String {
    let (first, second) = (answer >> 16 & 0xffff, answer >> 32 & 0xffff);
    let place = match answer >> 8 & 0xff {
        0 => "nowhere".to_string(),
        1 => format!("section {first}"),
        2 => format!("relocation section {first}, entry {second}"),
        _ => format!("record {first}"),
    };
    match answer {
        0 => "accepted".to_string(),
        _ => format!("refused with {} at {place}", answer & 0xff),
    }
}
