//! One input through both loaders.

use crate::abi;
use differential::payloads::Input;
use differential::second::refusal::in_words;
use differential::second::{self, Surroundings};
use differential::sequences::session::panicked;
use differential::stated::Stated;
use differential::surrounded::{first_difference, pattern, Surrounded};

/// The answers of one loader, and its buffers after them.
struct Answers {
    symbols: u64,
    file: u64,
    prepare: u64,
    buffers: [Vec<u8>; 3],
    /// Whether a byte beside a buffer was written.
    strayed: bool,
}

/// The library's answers to the list and to the payload, its buffers after them, and how the two loaders differ, in
/// words.
pub struct Outcome {
    pub symbols: u64,
    pub payload: u64,
    pub buffers: [Vec<u8>; 3],
    pub difference: Option<String>,
}

impl Outcome {
    fn new(library: Answers, difference: Option<String>) -> Outcome {
        Outcome { symbols: library.symbols, payload: library.prepare, buffers: library.buffers, difference }
    }
}

fn library_answers(input: &Input, fill: u8) -> Answers {
    let (file, list) = (Surrounded::new(&input.file, fill), Surrounded::new(&input.list, fill));
    let mut wide = input.buffers.map(|len| Surrounded::new(&pattern(len), fill));
    let [image, edits, summary] = &mut wide;
    let prepare =
        abi::prepare(file.inner(), list.inner(), input, [image.inner_mut(), edits.inner_mut(), summary.inner_mut()]);
    let strayed = wide.iter().any(|buffer| buffer.strayed());
    let buffers = wide.map(|buffer| buffer.inner().to_vec());
    let (symbols, file) = (abi::check_symbols(list.inner()), abi::check_file(file.inner()));
    Answers { symbols, file, prepare, buffers, strayed }
}

fn second_answers(input: &Input) -> Answers {
    let mut buffers = input.buffers.map(pattern);
    let around = Surroundings { text_base: input.text_base, text_len: input.text_len, slot_base: input.slot_base };
    let [image, edits, summary] = &mut buffers;
    let prepare = second::prepare_into(&input.file, &input.list, &around, [image, edits, summary]);
    let (symbols, file) = (second::check_symbols(&input.list), second::check_file(&input.file));
    Answers { symbols, file, prepare, buffers, strayed: false }
}

/// Puts an input through both loaders. The fill is what stands around the bytes that the library gets.
pub fn compare(input: &Input, stated: &Stated, fill: u8) -> Outcome {
    let library = library_answers(input, fill);
    let second = match std::panic::catch_unwind(|| second_answers(input)) {
        Ok(answers) => answers,
        Err(panic) => {
            let words = format!("the second loader panicked: {}", panicked(panic));
            return Outcome::new(library, Some(words));
        }
    };
    let calls = [
        ("check_symbols", stated.symbols, library.symbols, second.symbols),
        ("check_file", stated.file, library.file, second.file),
        ("prepare", stated.prepare, library.prepare, second.prepare),
    ];
    let answer =
        calls.into_iter().find_map(|(call, stated, library, second)| answers_differ(call, stated, library, second));
    let difference = answer.or_else(|| buffers_differ(&library, &second)).or_else(|| not_as_stated(&library, stated));
    Outcome::new(library, difference)
}

fn answers_differ(call: &str, stated: Option<u64>, library: u64, second: u64) -> Option<String> {
    let wanted = stated.unwrap_or(second);
    if library == second && second == wanted {
        return None;
    }
    let stated = stated.map_or(String::new(), |code| format!(", stated: {}", in_words(code)));
    Some(format!("{call}: library: {}, second loader: {}{stated}", in_words(library), in_words(second)))
}

const BUFFERS: [&str; 3] = ["image", "edits", "summary"];

fn buffers_differ(library: &Answers, second: &Answers) -> Option<String> {
    if library.strayed {
        return Some("prepare: the library wrote beside a buffer".to_string());
    }
    for (name, (a, b)) in BUFFERS.iter().zip(library.buffers.iter().zip(&second.buffers)) {
        if let Some((at, [a, b])) = first_difference(a, b) {
            let answer = in_words(library.prepare);
            return Some(format!(
                "prepare ({answer}): the {name} differs first at offset {at}: library: {a}, second loader: {b}"
            ));
        }
    }
    None
}

fn not_as_stated(answers: &Answers, stated: &Stated) -> Option<String> {
    if answers.prepare != 0 {
        return None;
    }
    for (buffer, at, bytes) in &stated.bytes {
        let is = &answers.buffers[*buffer][*at..*at + bytes.len()];
        if let Some((off, [is, wanted])) = first_difference(is, bytes) {
            return Some(format!(
                "prepare: the {} at offset {}: both loaders: {is}, stated: {wanted}",
                BUFFERS[*buffer],
                at + off
            ));
        }
    }
    None
}
