//! What is printed: a line for each test, the first difference, the closing line.

use crate::reached::Reached;
use differential::payloads::Input;
use differential::sequences::{Does, Session};
use std::path::PathBuf;

pub struct Report {
    pub passed: u64,
    pub failed: u64,
    pub cases: u64,
    /// The answers to the payloads of rows and objects, and to those of groups.
    pub named: Reached,
    pub generated: Reached,
    /// What was left out, and why.
    pub skipped: Vec<String>,
    /// Where the input of the first difference is kept.
    kept: PathBuf,
    shown: bool,
}

impl Report {
    pub fn new(kept: PathBuf) -> Report {
        Report {
            passed: 0,
            failed: 0,
            cases: 0,
            named: Reached::default(),
            generated: Reached::default(),
            skipped: Vec::new(),
            kept,
            shown: false,
        }
    }

    /// Counts one test.
    pub fn count(&mut self, cases: u64, differences: u64) {
        self.cases += cases;
        match differences {
            0 => self.passed += 1,
            _ => self.failed += 1,
        }
    }

    /// Shows the first difference of all in full, and keeps its input.
    pub fn difference(&mut self, case: &str, difference: &str, input: &Input) {
        if self.shown {
            return;
        }
        self.shown = true;
        println!("FIRST DIFFERENCE");
        println!("  case: {case}");
        println!("  {difference}");
        println!("  file of {} bytes, list of {} bytes", input.file.len(), input.list.len());
        println!(
            "  text_base {:#x}, text_len {:#x}, slot_base {:#x}, buffers {:?}",
            input.text_base, input.text_len, input.slot_base, input.buffers
        );
        let kept = std::fs::create_dir_all(&self.kept)
            .and_then(|()| std::fs::write(self.kept.join("file"), &input.file))
            .and_then(|()| std::fs::write(self.kept.join("list"), &input.list));
        match kept {
            Ok(()) => println!("  kept in {}", self.kept.display()),
            Err(error) => println!("  not kept: {error}"),
        }
    }

    /// Shows the calls up to the first difference of all, and keeps what the uploads were given.
    pub fn session(&mut self, case: &str, fault: &str, session: &Session) {
        if self.shown {
            return;
        }
        self.shown = true;
        println!("FIRST DIFFERENCE");
        println!("  case: {case}");
        for (number, (call, forged)) in session.log.iter().enumerate() {
            println!("  {number}: {call}{}", if *forged { " (forged records)" } else { "" });
            if let Does::Upload { symbols, file, .. } = &call.does {
                let kept = std::fs::create_dir_all(&self.kept)
                    .and_then(|()| std::fs::write(self.kept.join(format!("file-{number}")), &**file))
                    .and_then(|()| std::fs::write(self.kept.join(format!("list-{number}")), &**symbols));
                kept.unwrap_or_else(|error| println!("  not kept: {error}"));
            }
        }
        println!("  {fault}");
        println!("  files and lists kept in {}", self.kept.display());
    }

    /// What was skipped, in one line, and the closing line; true where nothing failed.
    pub fn close(&self) -> bool {
        println!("{} cases", self.cases);
        if !self.skipped.is_empty() {
            println!("skipped: {}", self.skipped.join("; "));
        }
        println!("{} passed, {} failed", self.passed, self.failed);
        self.failed == 0
    }
}
