//! Counts, and what is printed.

pub struct Report {
    passed: u64,
    failed: u64,
    /// The object and slot of the comparisons that follow.
    about: String,
    /// What was left out, and why.
    skipped: Vec<String>,
}

impl Report {
    pub fn new() -> Report {
        Report { passed: 0, failed: 0, about: String::new(), skipped: Vec::new() }
    }

    pub fn about(&mut self, about: &str) {
        self.about = about.to_string();
    }

    /// Counts one comparison. Its differences are printed, one to a line.
    pub fn compare(&mut self, what: &str, differences: &[String]) {
        if differences.is_empty() {
            self.passed += 1;
            return;
        }
        self.failed += 1;
        println!("FAILED: {}: {what}", self.about);
        for difference in differences {
            println!("    {difference}");
        }
    }

    pub fn fail(&mut self, what: &str, why: &str) {
        self.compare(what, &[why.to_string()]);
    }

    pub fn counts(&self) -> (u64, u64) {
        (self.passed, self.failed)
    }

    /// Notes a part that is left out; it is counted neither way.
    pub fn skip(&mut self, what: &str, why: &str) {
        self.skipped.push(format!("{what} ({why})"));
    }

    /// What was skipped, in one line, and the closing line; true where nothing failed.
    pub fn close(&self) -> bool {
        if !self.skipped.is_empty() {
            println!("skipped: {}", self.skipped.join("; "));
        }
        println!("{} passed, {} failed", self.passed, self.failed);
        self.failed == 0
    }
}

/// What differs between the loader's bytes and others, which begin at an offset: at most eight lines, and how many
/// bytes more.
pub fn differing(what: &str, first: usize, ours: &[u8], others: &str, theirs: &[u8]) -> Vec<String> {
    let mut lines = Vec::new();
    if ours.len() != theirs.len() {
        lines.push(format!("{what}: {} bytes for prepare, {} for {others}", ours.len(), theirs.len()));
    }
    let unequal: Vec<usize> = (0..ours.len().min(theirs.len())).filter(|at| ours[*at] != theirs[*at]).collect();
    for at in unequal.iter().take(8) {
        let (ours, theirs) = (ours[*at], theirs[*at]);
        lines.push(format!("{what}+{:#x}: prepare {ours:02x}, {others} {theirs:02x}", first + at));
    }
    if unequal.len() > 8 {
        lines.push(format!("and {} more bytes", unequal.len() - 8));
    }
    lines
}
