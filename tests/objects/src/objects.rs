//! Makes each object and compares it in several slots.

use crate::abi::Place;
use crate::compare::{compare, Expected};
use crate::elf::{relocation_types, sections};
use crate::list::{standard, OUTSIDE};
use crate::oracle::defined;
use crate::recipes::{all, Recipe, FLAGS};
use crate::report::Report;
use crate::tools::{read, tool, write};
use std::collections::{BTreeMap, BTreeSet};
use std::path::Path;

/// The sources, compiled into this program.
const SOURCES: [(&str, &str); 17] = [
    ("livepatch.h", include_str!("../sources/livepatch.h")),
    ("hello.c", include_str!("../sources/hello.c")),
    ("calls.c", include_str!("../sources/calls.c")),
    ("data.c", include_str!("../sources/data.c")),
    ("many.c", include_str!("../sources/many.c")),
    ("strings.c", include_str!("../sources/strings.c")),
    ("more_strings.c", include_str!("../sources/more_strings.c")),
    ("weak.c", include_str!("../sources/weak.c")),
    ("weak_code.c", include_str!("../sources/weak_code.c")),
    ("fill.S", include_str!("../sources/fill.S")),
    ("fields.S", include_str!("../sources/fields.S")),
    ("fixed.S", include_str!("../sources/fixed.S")),
    ("depends.S", include_str!("../sources/depends.S")),
    ("notes.S", include_str!("../sources/notes.S")),
    ("payload.lds", include_str!("../sources/payload.lds")),
    ("bounds.S", include_str!("../sources/bounds.S")),
    ("xen.c", include_str!("../sources/xen.c")),
];

pub const TEXT: (u64, u64) = (0xffff_82d0_8010_0000, 0x20_0000);

/// Slots above the text, below it, and almost 2 GB away.
const SLOTS: [u64; 3] = [0xffff_82d0_8040_0000, 0xffff_82d0_7fff_6000, 0xffff_82d0_ffc0_2000];

pub fn run(work: &Path, report: &mut Report) {
    let (mut types, mut weak) = (BTreeMap::new(), BTreeSet::new());
    for (index, recipe) in all().iter().enumerate() {
        let folder = work.join(format!("{index:02}"));
        report.about(recipe.name);
        match make(&folder, recipe) {
            Err(error) => report.fail("the payload was not made", &error),
            Ok(found) => {
                let before = report.counts();
                SLOTS.iter().for_each(|slot| one(&folder, recipe, *slot, report));
                let after = report.counts();
                let (passed, failed) = (after.0 - before.0, after.1 - before.1);
                println!("{}: relocations {found:?}, {passed} passed, {failed} failed", recipe.name);
                found.into_iter().for_each(|(kind, count)| *types.entry(kind).or_insert(0) += count);
                weak.extend(weak_names(&folder));
            }
        }
    }
    report.about("all objects");
    let unseen = [0, 1, 2, 4].into_iter().filter(|kind| !types.contains_key(kind));
    let unseen: Vec<String> = unseen.map(|kind| format!("no relocation of type {kind} was met")).collect();
    report.compare("relocation types that the rules know", &unseen);
    report.compare("weak names", &unmet(&weak));
}

/// Of weak names that are listed and of weak names that are missing, which were not met.
fn unmet(weak: &BTreeSet<String>) -> Vec<String> {
    let is_listed = |name: &String| OUTSIDE.iter().any(|(listed, _)| listed == name);
    let met = |listed: bool| weak.iter().any(|name| is_listed(name) == listed);
    let kinds = [(true, "listed"), (false, "missing")].into_iter().filter(|(listed, _)| !met(*listed));
    kinds.map(|(_, kind)| format!("no weak name that is {kind} was met")).collect()
}

fn one(folder: &Path, recipe: &Recipe, slot_base: u64, report: &mut Report) {
    report.about(&format!("{} in the slot at {slot_base:#x}", recipe.name));
    let place = Place { text_base: TEXT.0, text_len: TEXT.1, slot_base };
    let expected = Expected { id: recipe.id, depends: recipe.depends, edits: recipe.edits };
    if let Err(error) = compare(folder, &standard(), place, &defined(&OUTSIDE), &expected, report) {
        report.fail("it was not compared", &error);
    }
}

/// Makes a folder's payload.o; the types of its relocations, with how many there are of each.
fn make(folder: &Path, recipe: &Recipe) -> Result<BTreeMap<u64, usize>, String> {
    sources(folder)?;
    let mut objects = Vec::new();
    for source in recipe.sources {
        objects.push(compiled(folder, source, recipe.compile)?);
    }
    let objects: Vec<&str> = objects.iter().map(String::as_str).collect();
    tool(folder, &[&["ld", "-r", "-o", "payload.o"], recipe.link, &objects].concat())?;
    for words in recipe.then {
        tool(folder, words)?;
    }
    Ok(relocation_types(&sections(&read(folder, "payload.o")?)?))
}

/// The undefined names with weak binding that `nm` lists of a folder's payload.o.
fn weak_names(folder: &Path) -> Vec<String> {
    let listed = tool(folder, &["nm", "-u", "payload.o"]).unwrap_or_default();
    listed.lines().filter_map(|line| line.trim_start().strip_prefix("w ")).map(String::from).collect()
}

/// Writes the sources into a new folder.
pub fn sources(folder: &Path) -> Result<(), String> {
    let _ = std::fs::remove_dir_all(folder);
    std::fs::create_dir_all(folder).map_err(|error| format!("{}: {error}", folder.display()))?;
    SOURCES.iter().try_for_each(|(name, text)| write(folder, name, text.as_bytes()))
}

/// Compiles a source; the object's name.
pub fn compiled(folder: &Path, source: &str, flags: &[&str]) -> Result<String, String> {
    let object = format!("{source}.o");
    tool(folder, &[&["gcc"], FLAGS, flags, &["-c", source, "-o", &object]].concat())?;
    Ok(object)
}
