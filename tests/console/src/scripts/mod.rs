//! Random scripts, each from a seed.

mod bad;
mod changed;
mod limits;
mod lines;
mod noise;
mod rows;
mod session;
mod writer;

use differential::mutations::{table, Table};
use differential::rng::Rng;
use differential::sequences::driver::Ground;
use writer::Writer;

/// What a script is made of.
#[derive(Clone, Copy, PartialEq, Eq, Debug)]
pub enum Kind {
    /// A loader at work: payloads of the random generator, jobs, second starts, bad lines between.
    Session,
    /// Uploads of named changes of a payload: refusals of every number and place.
    Rows,
    /// Lines with fields at their bounds and past them.
    Lines,
    /// Payloads and lines of the largest sizes and a little more.
    Limits,
    /// Scripts with bytes and lines changed, inserted and removed.
    Changed,
    /// Bytes and words without sense.
    Noise,
}

/// Kinds, and their parts of a hundred scripts.
pub const KINDS: [(Kind, &str, u64); 6] = [
    (Kind::Session, "sessions", 40),
    (Kind::Rows, "uploads of named changes", 8),
    (Kind::Lines, "lines at their bounds", 18),
    (Kind::Limits, "sizes at their limits", 4),
    (Kind::Changed, "scripts with changes", 22),
    (Kind::Noise, "noise", 8),
];

/// Where the scripts of a group come from.
pub struct Source {
    kind: Kind,
    rng: Rng,
    ground: Ground,
    rows: Table,
}

impl Source {
    pub fn new(kind: Kind, seed: u64) -> Source {
        let mut rng = Rng::new(seed);
        let ground = session::ground(&mut rng);
        let rows = if matches!(kind, Kind::Rows | Kind::Changed) { table() } else { Table::default() };
        Source { kind, rng, ground, rows }
    }

    /// The next script.
    pub fn script(&mut self) -> Vec<u8> {
        match self.kind {
            Kind::Changed => {
                let kind = self.rng.pick(&[Kind::Session, Kind::Session, Kind::Session, Kind::Lines, Kind::Rows]);
                let script = self.of(kind);
                changed::changed(script, &mut self.rng)
            }
            kind => self.of(kind),
        }
    }

    fn of(&mut self, kind: Kind) -> Vec<u8> {
        match kind {
            Kind::Session => session::session(&self.ground, self.rng.number()),
            Kind::Rows => rows::rows(&self.rows, &mut self.rng),
            Kind::Lines => lines::lines(&mut self.rng),
            Kind::Limits => limits::limits(&mut self.rng),
            _ => noise::noise(&mut self.rng),
        }
    }
}
