//! One prepared payload held against what GNU ld made of it.

use crate::abi::{in_words, prepare, Place, Prepared, EDIT, EDITS, ID};
use crate::elf::{get, sections};
use crate::oracle::{by_name, link, placed, Linked, Placed};
use crate::recipes::Edit;
use crate::report::{differing, Report};
use crate::tools::read;
use std::path::Path;

/// What an object is to give.
pub struct Expected<'a> {
    pub id: &'a [u8],
    pub depends: &'a [u8],
    pub edits: &'a [(u64, Edit)],
}

/// Prepares the folder's payload.o and compares all that is written. An error is what kept it from being compared.
pub fn compare(
    folder: &Path,
    list: &[u8],
    place: Place,
    outside: &[String],
    expected: &Expected,
    report: &mut Report,
) -> Result<(), String> {
    let file = read(folder, "payload.o")?;
    let prepared = prepare(&file, list, place);
    let refused: Vec<String> = Some(in_words(prepared.answer)).filter(|_| prepared.answer != 0).into_iter().collect();
    report.compare("the answer", &refused);
    if prepared.answer != 0 {
        return Ok(());
    }
    let placed = placed(&sections(&file)?)?;
    let linked = link(folder, &placed, place.slot_base, outside)?;
    compare_sections(&prepared, &placed, &linked, place.slot_base, report);
    compare_rest(&prepared, &placed, report);
    let length = placed.iter().map(Placed::end).max().unwrap_or(0);
    compare_summary(&prepared, length, expected, report);
    compare_edits(&prepared, &linked, expected.edits, report);
    Ok(())
}

/// Each placed section with bytes, at its offset in the image.
fn compare_sections(prepared: &Prepared, placed: &[Placed], linked: &Linked, slot: u64, report: &mut Report) {
    let names = by_name(linked);
    for part in placed.iter().filter(|part| !part.section.bytes.is_empty()) {
        let name = &part.section.name;
        let what = format!("section {name}");
        let theirs = match names.get(name.as_str()) {
            Some(theirs) => theirs,
            None => {
                report.fail(&what, "ld left it out");
                continue;
            }
        };
        let mut lines = Vec::new();
        if theirs.address != slot + part.offset {
            lines.push(format!("ld put it at {:#x}, not at {:#x}", theirs.address, slot + part.offset));
        }
        if theirs.bytes.len() != part.section.bytes.len() {
            lines.push(format!("ld made {} bytes of {}", theirs.bytes.len(), part.section.bytes.len()));
        }
        match prepared.image.get(part.offset as usize..part.end() as usize) {
            Some(ours) => lines.extend(differing(name, 0, ours, "ld", &theirs.bytes)),
            None => lines.push("it ends outside the image".to_string()),
        }
        report.compare(&what, &lines);
    }
}

/// Gaps between sections and all after the last are zero.
fn compare_rest(prepared: &Prepared, placed: &[Placed], report: &mut Report) {
    let mut lines = Vec::new();
    let mut end = 0;
    let image = prepared.image.len();
    for next in placed.iter().map(|part| (part.offset as usize, part.end() as usize)).chain([(image, image)]) {
        let gap = &prepared.image[end..next.0.max(end)];
        lines.extend(differing("image", end, gap, "zero", &vec![0; gap.len()]));
        end = next.1;
    }
    report.compare("gaps and the tail are zero", &lines);
}

fn compare_summary(prepared: &Prepared, length: u64, expected: &Expected, report: &mut Report) {
    let numbers = [length as usize, expected.edits.len(), expected.id.len(), expected.depends.len()];
    let mut theirs: Vec<u8> = numbers.iter().flat_map(|number| (*number as u32).to_le_bytes()).collect();
    for id in [expected.id, expected.depends] {
        theirs.extend(id);
        theirs.resize(theirs.len() + ID - id.len(), 0);
    }
    report.compare("the summary", &differing("summary", 0, &prepared.summary, "stated", &theirs));
}

fn compare_edits(prepared: &Prepared, linked: &Linked, edits: &[(u64, Edit)], report: &mut Report) {
    for (index, (address, edit)) in edits.iter().enumerate() {
        let entry = &prepared.edits[EDIT * index..EDIT * (index + 1)];
        let lines = entry_differences(entry, *address, edit, linked).unwrap_or_else(|error| vec![error]);
        report.compare(&format!("edit {index}"), &lines);
    }
    let rest = &prepared.edits[EDIT * edits.len()..];
    let zeros = vec![0; EDIT * (EDITS - edits.len())];
    report.compare("entries after the last edit", &differing("edits", EDIT * edits.len(), rest, "zero", &zeros));
}

/// An entry's address, length and bytes. A jump is decoded: it lands where `nm` has the new function in ld's output.
fn entry_differences(entry: &[u8], address: u64, edit: &Edit, linked: &Linked) -> Result<Vec<String>, String> {
    let mut lines = Vec::new();
    let mut equal = |what: &str, ours: u64, theirs: u64| {
        if ours != theirs {
            lines.push(format!("{what}: prepare {ours:#x}, wanted {theirs:#x}"));
        }
    };
    let length = match edit {
        Edit::Jump(_) => 5,
        Edit::Fill(length) => *length,
    };
    equal("address", get(entry, 0, 8)?, address);
    equal("length", get(entry, 8, 4)?, length as u64);
    match edit {
        Edit::Jump(function) => {
            let displacement = get(entry, 13, 4)? as u32 as i32;
            equal("first byte", get(entry, 12, 1)?, 0xe9);
            let landing = get(entry, 0, 8)?.wrapping_add(5).wrapping_add(i64::from(displacement) as u64);
            equal(&format!("landing on {function}"), landing, linked.symbol(function)?);
        }
        Edit::Fill(length) => {
            lines.extend(differing("fill", 0, &entry[12..12 + length], "no-op", &vec![0x90; *length]))
        }
    }
    let rest = &entry[12 + length..];
    lines.extend(differing("entry", 12 + length, rest, "zero", &vec![0; rest.len()]));
    Ok(lines)
}
