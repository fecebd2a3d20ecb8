//! From a complete hold to the job's end: the work steps alone, for which the host stands still. Beside them as many
//! calls that move and check the state and make no edit, and the bare writing of the same bytes.

use crate::case::{Case, Memory};
use crate::plan;
use crate::scenes::{held, host, loaded, name, seven_applied, works};
use crate::show::{print_head, print_line};
use crate::timing::{in_turn, Timed, Times};
use differential::second::calls::state::{APPLY, REPLACE};
use differential::second::calls::state_of;
use differential::second::calls::steps::{steps, Step};
use differential::second::limits::{RECORDS, SLOTS, UNDO_RECORD};
use differential::sequences::Does;

/// A jump that is laid, or taken off where there are no bytes for it.
struct Write {
    text: usize,
    saved: usize,
    laid: Option<[u8; 5]>,
}

/// The writing of a job's edits and of what they cover, and nothing else.
struct Bare {
    writes: Vec<Write>,
    kept: [Vec<u8>; 2],
    text: Vec<u8>,
    undo: Vec<u8>,
}

impl Bare {
    /// All steps of the job that stands in this memory; none where there is no job.
    fn new(memory: &Memory) -> Option<Bare> {
        let state = state_of(&memory.records)?;
        let mut writes = Vec::new();
        for step in steps(&state)? {
            let (Step::TakeOff { slot, record } | Step::Lay { slot, record }) = step;
            let edit = state.in_slot(slot)?.edits()[record];
            let laid = match step {
                Step::Lay { .. } => Some(edit.bytes().try_into().ok()?),
                Step::TakeOff { .. } => None,
            };
            let saved = UNDO_RECORD * (RECORDS * slot as usize + record);
            writes.push(Write { text: edit.offset as usize, saved, laid });
        }
        let (text, undo) = (memory.text.clone(), memory.undo.clone());
        Some(Bare { writes, kept: [text.clone(), undo.clone()], text, undo })
    }

    /// Whether text and undo store are those of this memory.
    fn leaves(&self, memory: &Memory) -> bool {
        [&self.text, &self.undo] == [&memory.text, &memory.undo]
    }
}

impl Timed for Bare {
    fn before(&mut self) {
        self.text.copy_from_slice(&self.kept[0]);
        self.undo.copy_from_slice(&self.kept[1]);
    }

    fn run(&mut self) -> u64 {
        for Write { text, saved, laid } in &self.writes {
            let (covered, saved) = (&mut self.text[*text..text + 5], &mut self.undo[*saved..saved + 5]);
            match laid {
                Some(bytes) => {
                    saved.copy_from_slice(covered);
                    covered.copy_from_slice(bytes);
                }
                None => {
                    covered.copy_from_slice(saved);
                    saved.fill(0);
                }
            }
        }
        0
    }
}

/// A complete hold, with the number of work steps to the job's end and the slot of its payload.
struct Hold {
    steps: usize,
    slot: usize,
    case: Case,
}

fn holds() -> [Hold; 3] {
    let world = host(plan::TEXT_LEN);
    [
        Hold { steps: 1, slot: 0, case: loaded(&world, 1, 1).after(held(0, APPLY)) },
        Hold { steps: RECORDS, slot: 0, case: loaded(&world, 1, RECORDS).after(held(0, APPLY)) },
        Hold { steps: SLOTS * RECORDS, slot: 7, case: seven_applied(&world).after(held(7, REPLACE)) },
    ]
}

impl Hold {
    /// All work steps; the same with a get after each, as docs/integrators.md drives a job; as many reports, which check the state
    /// and write the job and make no edit.
    fn cases(&self) -> [Case; 3] {
        let get = Does::Get { name: name(self.slot) };
        let driven = vec![[Does::Work, get]; self.steps].concat();
        let reports = vec![Does::Report { cpu: 0 }; self.steps];
        [works(self.steps), driven, reports].map(|calls| self.case.timing(calls))
    }

    fn show(&self, rounds: usize) -> Result<(), String> {
        let cases = self.cases();
        let mut sides = [cases[0].sides()?, cases[1].sides()?, cases[2].sides()?];
        let mut bare = Bare::new(&sides[0][0].memory).ok_or("no job stands")?;
        let [[a, b], [c, d], [e, f]] = &mut sides;
        let timed: [&mut dyn Timed; 8] = [a, b, c, d, e, f, &mut bare, &mut || 0];
        let [a, b, c, d, e, f, bare_times, clock] = in_turn(rounds, timed);
        if sides.iter().any(|[a, b]| a.memory != b.memory) || !bare.leaves(&sides[0][0].memory) {
            return Err("after the last round the memory differs".to_string());
        }
        let (work, reports) = ([a, b], [e, f]);
        let steps = self.steps;
        print_line(&format!("to the job's end, edits: {steps}"), 1, &work);
        print_line("  each work step", steps, &work);
        print_line("  with a get after each step, each pair", steps, &[c, d]);
        print_line("  as many reports (state checked, job written), each", steps, &reports);
        print_bare(steps, &bare_times, &clock);
        print_shares("proved library", [&reports[0], &work[0]], &clock);
        print_shares("second loader", [&reports[1], &work[1]], &clock);
        Ok(())
    }

    /// Works the job once to its end by both, and by the bare writing.
    fn check(&self) -> Result<(), String> {
        let cases = self.cases();
        cases.iter().try_for_each(Case::agree)?;
        let [mut library, _] = cases[0].sides()?;
        let mut bare = Bare::new(&library.memory).ok_or("no job stands")?;
        let refused = library.run() | bare.run();
        let left = state_of(&library.memory.records).map(|state| state.job.action);
        if refused != 0 || left != Some(0) {
            return Err("the job is not at its end".to_string());
        }
        if !bare.leaves(&library.memory) {
            return Err("the bare writing leaves other bytes".to_string());
        }
        Ok(())
    }
}

/// The time less that of reading the clock.
fn net(times: &Times, clock: &Times, percent: usize) -> f64 {
    times.at(percent) - clock.at(percent)
}

fn print_bare(steps: usize, bare: &Times, clock: &Times) {
    let [median, least] = [50, 0].map(|percent| 1000.0 * net(bare, clock, percent));
    let each = median / steps as f64;
    println!("    the bare writing, less the clock: median {median:.0} ns, {each:.1} each; least {least:.0} ns");
}

/// What the work steps' time goes to, by the medians of reports and work steps.
fn print_shares(name: &str, times: [&Times; 2], clock: &Times) {
    let [reports, work] = times.map(|times| net(times, clock, 50));
    let [state, edit] = [reports, work - reports].map(|part| 100.0 * part / work);
    println!("    {name}: {state:.0} % reading, checking and writing the state, {edit:.0} % the rest, with the edit");
}

/// Checks all; how many cases there are.
pub fn check() -> Result<usize, String> {
    for hold in holds() {
        hold.check().map_err(|words| format!("from the hold, {} edits: {words}", hold.steps))?;
    }
    Ok(holds().iter().map(|hold| hold.cases().len()).sum())
}

pub fn show(rounds: usize) -> Result<(), String> {
    print_head("from a complete hold to the job's end, by edits; memory put back between rounds, outside the time:");
    for hold in holds() {
        let shown = hold.check().and_then(|_| hold.show(rounds));
        shown.map_err(|words| format!("from the hold, {} edits: {words}", hold.steps))?;
    }
    Ok(())
}
