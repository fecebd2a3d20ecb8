//! The library, called with the numbers of an input, and as a loader whose calls can be put beside another's.

use differential::payloads::Input;
use differential::sequences::Loader;

#[path = "../../boundary.rs"]
mod boundary;

pub use boundary::{check_file, check_symbols, records_size};

/// Prepares the file and list given here, with the numbers of the input.
pub fn prepare(file: &[u8], list: &[u8], input: &Input, buffers: [&mut [u8]; 3]) -> u64 {
    let place = boundary::Place { text_base: input.text_base, text_len: input.text_len, slot_base: input.slot_base };
    boundary::prepare(file, list, place, buffers)
}

/// The library's calls.
pub fn library() -> Loader {
    Loader {
        name: "library",
        start: boundary::start,
        upload: boundary::upload,
        get: boundary::get,
        list: boundary::list,
        action: boundary::action,
        report: boundary::report,
        tick: boundary::tick,
        work: boundary::work,
        top_build_id: boundary::top_build_id,
    }
}
