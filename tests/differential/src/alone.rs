//! The second loader by itself, held against what is stated; for the unit tests.

use crate::payloads::Input;
use crate::second::refusal::in_words;
use crate::second::{check_file, check_symbols, prepare_into, Surroundings};
use crate::stated::Stated;

/// What is stated of an input and isn't so.
pub fn faults(input: &Input, stated: &Stated) -> Vec<String> {
    let around = Surroundings { text_base: input.text_base, text_len: input.text_len, slot_base: input.slot_base };
    let mut buffers = input.buffers.map(|len| vec![0xa5; len]);
    let [image, edits, summary] = &mut buffers;
    let prepared = prepare_into(&input.file, &input.list, &around, [image, edits, summary]);
    let answers = [
        ("symbols", stated.symbols, check_symbols(&input.list)),
        ("file", stated.file, check_file(&input.file)),
        ("prepare", stated.prepare, prepared),
    ];
    let mut found = Vec::new();
    for (call, stated, answer) in answers {
        if stated.map_or(false, |code| code != answer) {
            found.push(format!("{call}: {} for {}", in_words(answer), in_words(stated.unwrap_or(0))));
        }
    }
    for (buffer, at, bytes) in stated.bytes.iter().filter(|_| prepared == 0) {
        let is = &buffers[*buffer][*at..*at + bytes.len()];
        if is != bytes {
            found.push(format!("buffer {buffer} at {at}: {is:02x?} for {bytes:02x?}"));
        }
    }
    if prepared != 0 && buffers.iter().flatten().any(|byte| *byte != 0xa5) {
        found.push("a refusal changed a buffer".to_string());
    }
    found
}
