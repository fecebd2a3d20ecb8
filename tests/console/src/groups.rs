//! Groups of random scripts, each with a seed: the program against the second console. A group counts as one test.

use crate::program;
use crate::report::{Difference, Report};
use crate::scripts::{Kind, Source, KINDS};
use crate::second::{self, Marks};
use differential::rng::Rng;
use std::path::Path;
use std::sync::atomic::{AtomicUsize, Ordering};
use std::sync::Mutex;

/// Scripts of a group.
const SCRIPTS: u64 = 25;

struct Group {
    kind: Kind,
    name: &'static str,
    seed: u64,
    count: u64,
}

/// What came of a group.
#[derive(Default)]
struct Outcome {
    marks: Marks,
    differences: Vec<Difference>,
}

/// The groups of so many scripts, or a few more.
fn groups(seed: u64, scripts: u64) -> Vec<Group> {
    let mut seeds = Rng::new(seed);
    let mut groups = Vec::new();
    for (kind, name, part) in KINDS {
        let mut left = (scripts * part + 99) / 100;
        while left > 0 {
            let count = left.min(SCRIPTS);
            groups.push(Group { kind, name, seed: seeds.number(), count });
            left -= count;
        }
    }
    groups
}

/// Runs so many scripts, in some threads; what they reached.
pub fn run(program: &Path, seed: u64, scripts: u64, jobs: usize, report: &mut Report) -> Marks {
    let groups = groups(seed, scripts);
    let outcomes: Vec<Mutex<Option<Outcome>>> = groups.iter().map(|_| Mutex::default()).collect();
    let next = AtomicUsize::new(0);
    let work = || loop {
        let at = next.fetch_add(1, Ordering::Relaxed);
        let group = match groups.get(at) {
            Some(group) => group,
            None => return,
        };
        let outcome = group.run(program);
        if outcome.differences.iter().any(|difference| difference.got.is_err()) {
            // a program that does not end well is not tried on and on
            next.store(groups.len(), Ordering::Relaxed);
        }
        *outcomes[at].lock().expect("no group fails inside") = Some(outcome);
    };
    std::thread::scope(|scope| (0..jobs).for_each(|_| drop(scope.spawn(work))));
    let mut marks = Marks::default();
    for (group, outcome) in groups.iter().zip(outcomes) {
        let what = format!("{}, seed {:#018x}", group.name, group.seed);
        match outcome.into_inner().expect("no group fails inside") {
            Some(outcome) => {
                marks.merge(&outcome.marks);
                let wrong = outcome.differences.len();
                report.count(&what, (wrong > 0).then(|| format!("{wrong} of {} scripts differ", group.count)));
                outcome.differences.iter().for_each(|difference| report.show(difference));
            }
            None => report.count(&what, Some("it was not run".to_string())),
        }
    }
    marks
}

impl Group {
    fn run(&self, program: &Path) -> Outcome {
        let mut outcome = Outcome::default();
        let mut source = Source::new(self.kind, self.seed);
        let mut rng = Rng::new(!self.seed);
        for number in 0..self.count {
            let script = source.script();
            let (expected, marks) = second::run(&script);
            outcome.marks.merge(&marks);
            let piece = rng.pick(&[1 << 20, 1 << 20, 4_096, 4_097, 1_000, 100]);
            let got = program::run(program, &script, piece);
            let ended = got.is_ok();
            if got.as_ref() != Ok(&expected) {
                let case = format!("{}, seed {:#018x}, script {number}", self.name, self.seed);
                outcome.differences.push(Difference { case, script, expected, got });
            }
            if !ended {
                break;
            }
        }
        outcome
    }
}
