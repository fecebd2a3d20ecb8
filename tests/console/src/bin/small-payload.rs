//! Prints a small payload (`src/small.rs`) as lines for a script, 64 digits to a line:
//!
//!   small-payload ID DEPENDS OLD RETURNS [AT=HEX]..
//!
//! ID and DEPENDS are words of 4 bytes, OLD is the address of the function that is changed, RETURNS what the new code returns; then
//! bytes to write over those of the file, each at an offset. With the variable WIDTH the lines have so many digits.

use console::small::{hex, Small};
use std::process::ExitCode;

fn made(words: &[String]) -> Option<Vec<u8>> {
    let id = |word: &String| <[u8; 4]>::try_from(word.as_bytes()).ok();
    let (old, returns) = (words.get(2)?.parse().ok()?, words.get(3)?.parse().ok()?);
    let mut file = Small { id: id(&words[0])?, depends: id(&words[1])?, old, returns }.file();
    for word in &words[4..] {
        let (at, digits) = word.split_once('=')?;
        let at: usize = at.parse().ok()?;
        for pair in 0..digits.len() / 2 {
            *file.get_mut(at + pair)? = u8::from_str_radix(digits.get(2 * pair..2 * pair + 2)?, 16).ok()?;
        }
    }
    Some(file)
}

fn main() -> ExitCode {
    let words: Vec<String> = std::env::args().skip(1).collect();
    let width = std::env::var("WIDTH").ok().and_then(|width| width.parse().ok()).filter(|width| *width > 1);
    match made(&words) {
        Some(file) => {
            file.chunks(width.unwrap_or(64) / 2).for_each(|bytes| println!("{}", hex(bytes)));
            ExitCode::SUCCESS
        }
        None => {
            eprintln!("usage: small-payload ID DEPENDS OLD RETURNS [AT=HEX]..");
            ExitCode::from(2)
        }
    }
}
