//! Scripts with the answers that they have to get: from both consoles.

use crate::program;
use crate::report::Report;
use crate::second;
use std::path::{Path, PathBuf};

/// A script by its files.
pub struct Stored {
    pub script: PathBuf,
    pub answers: PathBuf,
}

/// All scripts of a folder: NAME.in, with the answers in NAME.out.
pub fn folder(folder: &Path) -> std::io::Result<Vec<Stored>> {
    let mut paths = Vec::new();
    for entry in std::fs::read_dir(folder)? {
        paths.push(entry?.path());
    }
    paths.sort();
    let scripts = paths.into_iter().filter(|path| path.extension().map_or(false, |extension| extension == "in"));
    Ok(scripts.map(|script| Stored { answers: script.with_extension("out"), script }).collect())
}

/// Both consoles on a script with these answers, the program also where it gets the script in small pieces: a test each.
pub fn both(program: &Path, name: &str, script: &[u8], answers: &[u8], report: &mut Report) {
    report.compare(&format!("{name}, the second console"), script, answers, Ok(second::run(script).0));
    let small = 1 + script.len() / 50_000;
    for piece in [1 << 20, small] {
        let case = format!("{name}, the program, in pieces of {piece}");
        report.compare(&case, script, answers, program::run(program, script, piece));
    }
}

pub fn run(program: &Path, scripts: &[Stored], report: &mut Report) {
    for stored in scripts {
        let name = stored.script.display().to_string();
        match (std::fs::read(&stored.script), std::fs::read(&stored.answers)) {
            (Ok(script), Ok(answers)) => both(program, &name, &script, &answers, report),
            (Err(error), _) => report.count(&name, Some(error.to_string())),
            (_, Err(error)) => report.count(&stored.answers.display().to_string(), Some(error.to_string())),
        }
    }
}
