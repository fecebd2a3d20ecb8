//! How far a field reaches: the library refuses with 34 exactly where GNU ld says that a relocation is truncated, and
//! with 3 where ld finds no such name. A weak name that is missing is 0 to both.

use crate::abi::{in_words, prepare, Place};
use crate::elf::{get, sections, RELA};
use crate::list::encode;
use crate::objects::{compiled, sources, TEXT};
use crate::oracle::{by_name, defined, link, placed};
use crate::report::Report;
use crate::tools::{read, tool};
use std::path::Path;

/// Slots above the text, at the first page that a slot may have, and at the end of all addresses.
const SLOTS: [u64; 3] = [0xffff_82d0_8040_0000, 0x1000, 0xffff_ffff_ffff_e000];

pub fn run(work: &Path, report: &mut Report) {
    let before = report.counts();
    for (kind, binding) in [1, 2, 4].into_iter().flat_map(|kind| [(kind, "globl"), (kind, "weak")]) {
        let folder = work.join(format!("bounds-{kind}-{binding}"));
        report.about(&format!("a field of type {kind}, the name {binding}"));
        if let Err(error) = make(&folder, kind, binding).and_then(|()| field(&folder, kind, report)) {
            report.fail("it was not compared", &error);
        }
    }
    let after = report.counts();
    println!("bounds of fields: {} passed, {} failed", after.0 - before.0, after.1 - before.1);
}

fn make(folder: &Path, kind: u64, binding: &str) -> Result<(), String> {
    sources(folder)?;
    let field = compiled(folder, "bounds.S", &[&format!("-DTYPE={kind}"), &format!("-DBINDING=.{binding}")])?;
    let depends = compiled(folder, "depends.S", &[])?;
    tool(folder, &["ld", "-r", "--build-id=0x01020304", "-o", "payload.o", &field, &depends])?;
    let all = sections(&read(folder, "payload.o")?)?;
    let first = all.iter().find(|section| section.kind == RELA).ok_or("it has no relocation")?;
    match get(&first.bytes, 8, 4)? == kind {
        true => Ok(()),
        false => Err("the assembler made another type".to_string()),
    }
}

/// One field in every slot, with the name on both sides of each bound, and with no such name.
fn field(folder: &Path, kind: u64, report: &mut Report) -> Result<(), String> {
    let file = read(folder, "payload.o")?;
    let parts = placed(&sections(&file)?)?;
    for slot in SLOTS {
        let at = link(folder, &parts, slot, &defined(&[("near", slot)]))?.symbol("field")?;
        let zero = if kind == 4 { at.wrapping_add(4) } else { at };
        let (most, least) = (zero.wrapping_add(0x7fff_ffff), zero.wrapping_sub(0x8000_0000));
        let tries =
            [most.wrapping_sub(1), most, most.wrapping_add(1), least.wrapping_add(1), least, least.wrapping_sub(1)];
        for near in tries.into_iter().chain([zero, 0, u64::MAX, zero ^ 1 << 63]).map(Some).chain([None]) {
            one(folder, &file, slot, near, report)?;
        }
    }
    Ok(())
}

/// The same name at the same address, or none, for the library and for ld.
fn one(folder: &Path, file: &[u8], slot_base: u64, near: Option<u64>, report: &mut Report) -> Result<(), String> {
    let parts = placed(&sections(file)?)?;
    let place = Place { text_base: TEXT.0, text_len: TEXT.1, slot_base };
    let prepared = prepare(file, &encode(near.map(|near| ("near".to_string(), near)).into_iter().collect()), place);
    let outside = defined(&near.map(|near| ("near", near)).into_iter().collect::<Vec<_>>());
    let what = near.map_or("no name".to_string(), |near| format!("the name at {near:#x}"));
    let mut lines = Vec::new();
    let wanted = match link(folder, &parts, slot_base, &outside) {
        Ok(linked) => {
            let text = parts.iter().find(|part| part.section.name == ".text").ok_or("it has no .text")?;
            let theirs = &by_name(&linked).get(".text").ok_or("ld left .text out")?.bytes;
            let ours = &prepared.image[text.offset as usize..text.end() as usize];
            if prepared.answer == 0 && ours != theirs {
                lines.push(format!(".text: prepare {ours:02x?}, ld {theirs:02x?}"));
            }
            0
        }
        Err(error) if error.contains("undefined reference") => 3,
        Err(error) if error.contains("relocation truncated to fit") => 34,
        Err(error) => return Err(error),
    };
    if prepared.answer & 0xff != wanted || (wanted != 0 && prepared.answer >> 8 & 0xff != 2) {
        lines.push(format!("prepare: {}; by ld it is to be {wanted}", in_words(prepared.answer)));
    }
    report.compare(&format!("{what}, in the slot at {slot_base:#x}"), &lines);
    Ok(())
}
