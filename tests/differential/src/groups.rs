//! The generated groups: each has a seed and a number of cases, and counts as one test.

use crate::compare::compare;
use crate::reached::Reached;
use crate::report::Report;
use differential::damage::{damage, free_bytes, symbol_list, Focus};
use differential::mutations::{table, Table};
use differential::payloads::random::{edge_payload, lists, payload, payload_beyond, Made};
use differential::payloads::Input;
use differential::rng::Rng;
use differential::stated::Stated;
use std::io::Write;

/// What a group is made of.
#[derive(Clone, Copy)]
enum Kind {
    ValidLists,
    DamagedLists,
    ValidPayloads,
    /// Valid payloads changed where no rule looks: same answer, same buffers.
    FreeBytes,
    /// Payloads whose slot lies where the reach of jumps ends.
    Edge,
    /// Payloads that pass one limit.
    Beyond,
    /// The changes of two named rows at once: the order of checks.
    TwoRows,
    Damaged(Focus),
}

/// Kinds, their names, and their parts of all cases.
const KINDS: [(Kind, &str, u64); 19] = [
    (Kind::ValidLists, "valid symbol lists", 2),
    (Kind::DamagedLists, "damaged symbol lists", 7),
    (Kind::ValidPayloads, "valid payloads", 10),
    (Kind::FreeBytes, "bytes that no rule consults", 2),
    (Kind::Edge, "jumps at the end of their reach", 2),
    (Kind::Beyond, "payloads past one limit", 2),
    (Kind::TwoRows, "two rows at once", 12),
    (Kind::Damaged(Focus::Header), "damaged headers", 4),
    (Kind::Damaged(Focus::SectionTable), "damaged section tables", 18),
    (Kind::Damaged(Focus::Names), "damaged section names", 5),
    (Kind::Damaged(Focus::Notes), "damaged notes", 5),
    (Kind::Damaged(Focus::Symbols), "damaged symbols", 5),
    (Kind::Damaged(Focus::Relocations), "damaged relocations", 6),
    (Kind::Damaged(Focus::Records), "damaged records", 5),
    (Kind::Damaged(Focus::Anywhere), "bytes changed anywhere", 5),
    (Kind::Damaged(Focus::Length), "truncated and lengthened files", 3),
    (Kind::Damaged(Focus::Splice), "parts of other payloads", 4),
    (Kind::Damaged(Focus::SymbolList), "payloads with damaged symbol lists", 2),
    (Kind::Damaged(Focus::Surroundings), "other text ranges, slots and buffers", 3),
];

/// Groups of each kind.
const GROUPS: u64 = 5;

/// Damaged copies of one payload.
const COPIES: u64 = 16;

/// Runs all groups, with so many cases in all, or a few more.
pub fn run(seed: u64, cases: u64, report: &mut Report) {
    let mut seeds = Rng::new(seed);
    let kinds = || KINDS.into_iter();
    let whole: u64 = kinds().map(|(_, _, part)| part).sum();
    for (kind, name, part) in kinds() {
        for _ in 0..GROUPS {
            group(kind, name, seeds.number(), (cases * part + whole * GROUPS - 1) / (whole * GROUPS), report);
        }
    }
}

fn group(kind: Kind, name: &str, seed: u64, count: u64, report: &mut Report) {
    print!("group {name}, seed {seed:#018x}: ");
    let _ = std::io::stdout().flush();
    let mut source = Source::new(kind, seed);
    let mut answers = Reached::default();
    let mut differences = 0;
    for number in 0..count {
        let (input, stated) = source.input();
        let fill = if number % 2 == 0 { 0 } else { 0xff };
        let outcome = compare(&input, &stated, fill);
        report.generated.add(outcome.payload);
        answers.add(match kind {
            Kind::ValidLists | Kind::DamagedLists => outcome.symbols,
            _ => outcome.payload,
        });
        if let Some(difference) = outcome.difference {
            if differences == 0 {
                println!("case {number}: {difference}");
                report.difference(&format!("{name}, seed {seed:#018x}, case {number}"), &difference, &input);
            }
            differences += 1;
        }
    }
    let verdict = match (count, differences) {
        (0, _) => "FAILED, it ran no case".to_string(),
        (_, 0) => "ok".to_string(),
        _ => format!("FAILED, {differences} differ"),
    };
    println!("{verdict}, {count} cases ({})", answers.in_words());
    report.count(count, differences + u64::from(count == 0));
}

/// Where a group's inputs come from.
struct Source {
    kind: Kind,
    rng: Rng,
    rows: Table,
    made: Made,
    spare: Made,
    left: u64,
}

impl Source {
    fn new(kind: Kind, seed: u64) -> Source {
        let mut rng = Rng::new(seed);
        let (made, spare) = (payload(&mut rng), payload(&mut rng));
        let rows = if matches!(kind, Kind::TwoRows) { table() } else { Table::default() };
        Source { kind, rng, rows, made, spare, left: COPIES }
    }

    fn input(&mut self) -> (Input, Stated) {
        match self.kind {
            Kind::ValidLists => {
                let input = Input { list: lists::symbol_list(&mut self.rng), ..self.made.input.clone() };
                (input, Stated { symbols: Some(0), ..Stated::default() })
            }
            Kind::DamagedLists => {
                let mut list = lists::symbol_list(&mut self.rng);
                symbol_list(&mut list, &mut self.rng);
                (Input { list, ..self.made.input.clone() }, Stated::default())
            }
            Kind::ValidPayloads => {
                let made = payload(&mut self.rng);
                (made.input, made.stated)
            }
            Kind::FreeBytes => self.free_bytes(),
            Kind::Edge => {
                let stated = Stated { symbols: Some(0), file: Some(0), ..Stated::default() };
                (edge_payload(&mut self.rng), stated)
            }
            Kind::Beyond => payload_beyond(&mut self.rng),
            Kind::TwoRows => (self.two_rows(), Stated::default()),
            Kind::Damaged(focus) => (self.damaged(focus), Stated::default()),
        }
    }

    fn free_bytes(&mut self) -> (Input, Stated) {
        let Made { mut input, assembled, mut stated } = payload(&mut self.rng);
        let before = compare(&input, &stated, 0).buffers;
        stated.bytes = before.into_iter().enumerate().map(|(buffer, bytes)| (buffer, 0, bytes)).collect();
        free_bytes(&assembled, &mut input.file, &mut self.rng);
        (input, stated)
    }

    fn two_rows(&mut self) -> Input {
        loop {
            let (first, second) = (self.rng.index(self.rows.rows.len()), self.rng.index(self.rows.rows.len()));
            let variant = self.rng.number();
            if let Some(input) = self.rows.rows[first].with(&self.rows.rows[second], variant) {
                return input;
            }
        }
    }

    fn damaged(&mut self, focus: Focus) -> Input {
        if self.left == 0 {
            self.spare = std::mem::replace(&mut self.made, payload(&mut self.rng));
            self.left = COPIES;
        }
        self.left -= 1;
        damage(&self.made, &self.spare, focus, &mut self.rng)
    }
}
