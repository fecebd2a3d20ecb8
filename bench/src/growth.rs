//! How the time of an upload grows: with the file, with its relocations, with the names in the list.

use crate::case::Case;
use crate::plan::{self, Plan, LEAST, LOOKED_UP};
use crate::scenes::{host, loaded, upload};
use crate::show::{print_head, print_line};
use differential::second::limits::{FILE, RECORDS};
use differential::sequences::World;
use std::rc::Rc;

const FILES: [usize; 6] = [0, 2_048, 4_096, 8_192, 16_384, FILE];
const RELOCATIONS: [usize; 4] = [0, 100, 300, 600];
const NAMES: [usize; 5] = [10, 100, 1_000, 4_000, 20_000];

/// A table's title, and the plans of its lines with the number that each is for.
struct Table {
    title: String,
    unit: &'static str,
    plans: Vec<(usize, Plan)>,
}

fn tables() -> [Table; 3] {
    let large = Plan { records: RECORDS, file: FILE, ..LEAST };
    let files = FILES.iter().map(|&file| Plan { file, ..LEAST });
    let relocations = RELOCATIONS.iter().map(|&relocations| (relocations, Plan { relocations, ..large }));
    let names = NAMES.iter().map(|&names| (names, Plan { names, relocations: 300, ..large }));
    [
        Table {
            title: "upload by file length (1 record, no relocation, 10 names):".to_string(),
            unit: "bytes",
            plans: files.map(|plan| (plan.payload().file.len(), plan)).collect(),
        },
        Table {
            title: format!("upload by relocations ({FILE} bytes, {RECORDS} records, 10 names, {LOOKED_UP} looked up):"),
            unit: "relocations",
            plans: relocations.collect(),
        },
        Table {
            title: format!(
                "upload by names ({FILE} bytes, {RECORDS} records, 300 relocations, {LOOKED_UP} looked up):"
            ),
            unit: "names",
            plans: names.collect(),
        },
    ]
}

/// The upload of a payload by this plan into an empty loader.
fn case(world: &Rc<World>, plan: &Plan) -> Result<Case, String> {
    let payload = plan.payload();
    if plan.file > 0 && payload.file.len() != plan.file {
        return Err(format!("the file has {} bytes", payload.file.len()));
    }
    Ok(loaded(world, 0, 1).timing(vec![upload(0, payload)]))
}

/// Uploads each once by both; how many there are.
pub fn check() -> Result<usize, String> {
    let world = host(plan::TEXT_LEN);
    let mut count = 0;
    for table in tables() {
        for (number, plan) in &table.plans {
            let agreed = case(&world, plan).and_then(|case| case.agree());
            agreed.map_err(|words| format!("upload, {number} {}: {words}", table.unit))?;
            count += 1;
        }
    }
    Ok(count)
}

pub fn show(rounds: usize) -> Result<(), String> {
    let world = host(plan::TEXT_LEN);
    for (at, table) in tables().iter().enumerate() {
        if at > 0 {
            println!();
        }
        print_head(&table.title);
        for (number, plan) in &table.plans {
            let name = format!("{number} {}", table.unit);
            let times = case(&world, plan).and_then(|case| case.times(rounds));
            print_line(&name, 1, &times.map_err(|words| format!("upload, {name}: {words}"))?);
        }
    }
    Ok(())
}
