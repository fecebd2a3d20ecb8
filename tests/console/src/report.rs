//! What is printed: failures, the first difference in full, the closing line.

use std::path::PathBuf;

pub struct Report {
    passed: u64,
    failed: u64,
    /// Where the script of the first difference is kept.
    kept: PathBuf,
    shown: bool,
}

/// A script that two sides answer differently, or one of them not at all.
pub struct Difference {
    pub case: String,
    pub script: Vec<u8>,
    pub expected: Vec<u8>,
    pub got: Result<Vec<u8>, String>,
}

impl Report {
    pub fn new(kept: PathBuf) -> Report {
        Report { passed: 0, failed: 0, kept, shown: false }
    }

    /// Counts one test; what is wrong is printed.
    pub fn count(&mut self, what: &str, wrong: Option<String>) {
        match wrong {
            None => self.passed += 1,
            Some(wrong) => {
                self.failed += 1;
                println!("console: FAILED: {what}: {wrong}");
            }
        }
    }

    /// Counts one test: the answers have to be these.
    pub fn compare(&mut self, case: &str, script: &[u8], expected: &[u8], got: Result<Vec<u8>, String>) {
        if got.as_deref() == Ok(expected) {
            return self.count(case, None);
        }
        let difference =
            Difference { case: case.to_string(), script: script.to_vec(), expected: expected.to_vec(), got };
        self.count(case, Some(difference.in_words()));
        self.show(&difference);
    }

    /// Keeps the script and both answers of the first difference.
    pub fn show(&mut self, difference: &Difference) {
        if self.shown {
            return;
        }
        self.shown = true;
        let got = difference.got.as_deref().unwrap_or_default();
        let files = [("script", &difference.script[..]), ("expected", &difference.expected), ("got", got)];
        let write = |(name, bytes): &(&str, &[u8])| std::fs::write(self.kept.join(name), bytes);
        let written = std::fs::create_dir_all(&self.kept).and_then(|()| files.iter().try_for_each(write));
        let where_kept = match written {
            Ok(()) => format!("kept in {}", self.kept.display()),
            Err(error) => format!("not kept: {error}"),
        };
        println!("console: FIRST DIFFERENCE: {}: {}; {where_kept}", difference.case, difference.in_words());
    }

    /// Prints the closing line; whether all passed.
    pub fn close(&self) -> bool {
        println!("{} passed, {} failed", self.passed, self.failed);
        self.failed == 0 && self.passed > 0
    }
}

impl Difference {
    /// The first line that differs.
    pub fn in_words(&self) -> String {
        let got = match &self.got {
            Ok(got) => got,
            Err(error) => return error.clone(),
        };
        let lines = |bytes: &[u8]| bytes.split(|byte| *byte == b'\n').map(<[u8]>::to_vec).collect::<Vec<_>>();
        let (expected, got) = (lines(&self.expected), lines(got));
        let same = expected.iter().zip(&got).take_while(|(one, other)| one == other).count();
        let shown = |lines: &[Vec<u8>]| match lines.get(same) {
            Some(line) => format!("'{}'", line.escape_ascii()),
            None => "its end".to_string(),
        };
        format!("line {} of the answers is {}, and not {}", same + 1, shown(&got), shown(&expected))
    }
}
