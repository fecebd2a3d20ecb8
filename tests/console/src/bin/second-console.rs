//! The second console as a program: reads a script from standard input and writes the answers.

use std::io::{Read, Result, Write};

fn main() -> Result<()> {
    let mut input = Vec::new();
    std::io::stdin().read_to_end(&mut input)?;
    let (output, _) = console::second::run(&input);
    std::io::stdout().write_all(&output)
}
