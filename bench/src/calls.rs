//! The calls one by one, and whole actions.

use crate::case::{Case, ROOM};
use crate::largest::{self, LARGEST};
use crate::plan;
use crate::scenes::{action, held, host, loaded, name, seven_applied, upload, works, CPUS};
use crate::show::{print_head, print_line};
use differential::second::calls::state::{APPLY, REPLACE, UNLOAD};
use differential::second::limits::{RECORDS, SLOTS};
use differential::sequences::Does;

/// A line of the table: the time of a round is that of so many of the same.
struct Line {
    name: String,
    per: usize,
    case: Case,
}

fn whole(name: &str, case: Case) -> Line {
    Line { name: name.to_string(), per: 1, case }
}

/// One call of many, which a round makes one after the other.
fn one_of(name: &str, case: Case) -> Line {
    Line { name: name.to_string(), per: case.calls.len(), case }
}

fn uploads() -> Vec<Line> {
    let world = host(largest::TEXT_LEN);
    let largest = |slot| vec![upload(slot, largest::payload(&LARGEST))];
    vec![
        whole("upload of the largest payload, none loaded", loaded(&world, 0, 1).timing(largest(0))),
        whole("upload of the largest payload, seven loaded", loaded(&world, 7, RECORDS).timing(largest(7))),
    ]
}

/// The calls on a state, with the job of an action on its last payload; the names say which state.
fn single(names: [&str; 5], state: &Case, slot: usize, command: u32) -> Vec<Line> {
    let stands = state.clone().after(vec![action(slot, command)]);
    let complete = state.clone().after(held(slot, command));
    let reports = (0..64).map(|number| Does::Report { cpu: number % CPUS }).collect();
    vec![
        one_of(names[0], state.timing(vec![Does::Get { name: name(slot) }; 64])),
        one_of(names[1], state.timing(vec![Does::TopBuildId; 64])),
        one_of(names[2], stands.timing(reports)),
        one_of(names[3], stands.timing(vec![Does::Tick; 64])),
        one_of(names[4], complete.timing(works(RECORDS))),
    ]
}

fn lines() -> Vec<Line> {
    let world = host(plan::TEXT_LEN);
    let (one, eight) = (loaded(&world, 1, RECORDS), seven_applied(&world));
    let (one_job, all_edits) = (format!("action, {CPUS} reports"), SLOTS * RECORDS);
    let apply = [held(0, APPLY), works(RECORDS)].concat();
    let replace = [held(7, REPLACE), works(all_edits)].concat();
    let mut lines = uploads();
    lines.push(whole(&format!("apply, {RECORDS} edits: {one_job}, {RECORDS} work steps"), one.timing(apply)));
    lines.push(whole(&format!("replace over seven: {one_job}, {all_edits} work steps"), eight.timing(replace)));
    let names = ["get, one loaded", "top_build_id, one", "report, one", "tick, one", "work, one"];
    lines.extend(single(names, &one, 0, APPLY));
    let names = ["get, eight loaded", "top_build_id, eight", "report, eight", "tick, eight", "work, eight"];
    lines.extend(single(names, &eight, 7, REPLACE));
    let list = Does::List { idx: 0, nr: 8, room: ROOM };
    lines.push(one_of("list of eight", eight.timing(vec![list; 64])));
    lines.push(whole("unload, one loaded", one.timing(vec![action(0, UNLOAD)])));
    lines.push(whole("unload of the first of eight", loaded(&world, 8, RECORDS).timing(vec![action(0, UNLOAD)])));
    lines
}

/// Makes all calls once by both; how many cases there are.
pub fn check() -> Result<usize, String> {
    let lines = lines();
    for line in &lines {
        line.case.agree().map_err(|words| format!("{}: {words}", line.name))?;
    }
    Ok(lines.len())
}

pub fn show(rounds: usize) -> Result<(), String> {
    println!("both loaders get the records as bytes: each call reads and checks them, and writes back what it may");
    println!("  change: all of them, or in the library's upload, report, tick and work the part that changes");
    print_head("calls, memory put back between rounds, outside the time:");
    for Line { name, per, case } in lines() {
        let times = case.times(rounds).map_err(|words| format!("{name}: {words}"))?;
        print_line(&name, per, &times);
    }
    Ok(())
}
