//! Payloads against the Xen of Debian's package xen-hypervisor-4.17-amd64-dbg: its text, symbols and build-id.

use crate::abi::Place;
use crate::compare::{compare, Expected};
use crate::elf::{rounded_up, sections, Section};
use crate::list::encode;
use crate::objects::{compiled, sources};
use crate::recipes::Edit;
use crate::report::Report;
use crate::tools::{read, symbols, tool};
use std::collections::{BTreeMap, BTreeSet};
use std::path::Path;

/// What a payload needs to know of the hypervisor.
struct Xen {
    text: (u64, u64),
    /// The first multiple of 2 MB after all of it.
    after: u64,
    names: BTreeMap<String, u64>,
    id: Vec<u8>,
    /// The address and size of the function to replace.
    function: (u64, u64),
}

/// The function that the payloads replace.
const REPLACED: &str = "xen_extra_version";

/// The payloads' own id.
const ID: [u8; 4] = [1, 2, 3, 4];

/// Compares with the hypervisor's debug image. Where there is none this part is skipped, for the reason given.
pub fn run(work: &Path, image: &Path, why_missing: &str, report: &mut Report) {
    if !image.exists() {
        return report.skip("payloads on Debian's Xen", why_missing);
    }
    report.about("Debian's Xen");
    let image = image.to_string_lossy();
    let xen = match examine(work, &image) {
        Ok(xen) => xen,
        Err(error) => return report.fail("the image was not read", &error),
    };
    let id: String = xen.id.iter().map(|byte| format!("{byte:02x}")).collect();
    println!(
        "Debian's Xen: text of {} bytes at {:#x}, {} names, build-id {id}",
        xen.text.1,
        xen.text.0,
        xen.names.len()
    );
    let before = report.counts();
    payloads(work, &image, &xen, report);
    let after = report.counts();
    println!("payloads on Debian's Xen: {} passed, {} failed", after.0 - before.0, after.1 - before.1);
}

/// Two payloads in two slots after the hypervisor.
fn payloads(work: &Path, image: &str, xen: &Xen, report: &mut Report) {
    for (source, function) in [("hello.c", "xen_hello_world"), ("xen.c", "new_extra_version")] {
        for slot in [xen.after, xen.after + 0x2000_0000] {
            report.about(&format!("{source} on Debian's Xen in the slot at {slot:#x}"));
            if let Err(error) = one(&work.join(source), image, xen, (source, function), slot, report) {
                report.fail("it was not compared", &error);
            }
        }
    }
}

fn one(
    folder: &Path,
    image: &str,
    xen: &Xen,
    (source, function): (&str, &'static str),
    slot_base: u64,
    report: &mut Report,
) -> Result<(), String> {
    sources(folder)?;
    let object = compiled(folder, source, &[&format!("-DOLD_SIZE={}", xen.function.1), "-mno-red-zone", "-mno-sse"])?;
    let note = "--only-section=.note.gnu.build-id";
    tool(folder, &["objcopy", "-O", "binary", note, image, "depends.bin"])?;
    tool(folder, &["ld", "-r", "--build-id=0x01020304", "-o", "payload.o", &object])?;
    tool(folder, &["objcopy", "--add-section", ".livepatch.depends=depends.bin", "payload.o"])?;
    let edits = [(xen.function.0, Edit::Jump(function))];
    let expected = Expected { id: &ID, depends: &xen.id, edits: &edits };
    let place = Place { text_base: xen.text.0, text_len: xen.text.1, slot_base };
    let outside = [format!("--just-symbols={image}")];
    compare(folder, &encode(xen.names.clone()), place, &outside, &expected, report)
}

fn examine(work: &Path, image: &str) -> Result<Xen, String> {
    let all = sections(&read(Path::new("/"), image)?)?;
    let text = all.iter().find(|section| section.name == ".text").ok_or("it has no .text")?;
    let end = |section: &Section| section.address + section.bytes.len() as u64;
    let after = rounded_up(all.iter().map(end).max().unwrap_or(0), 0x20_0000);
    let notes = tool(work, &["readelf", "-nW", image])?;
    let id = notes.split("Build ID: ").nth(1).and_then(|rest| rest.split_whitespace().next());
    let id = bytes(id.ok_or("it has no build-id")?)?;
    let names = distinct(symbols(work, image)?);
    Ok(Xen { text: (text.address, text.bytes.len() as u64), after, names, id, function: function(work, image)? })
}

/// The address and size that `nm` has for the function to replace.
fn function(work: &Path, image: &str) -> Result<(u64, u64), String> {
    let listed = tool(work, &["nm", "--print-size", image])?;
    let rows = listed.lines().map(|line| line.split_whitespace().collect::<Vec<_>>());
    let found = rows.filter(|row| row.len() == 4 && row[3] == REPLACED).map(|row| (number(row[0]), number(row[1])));
    match found.collect::<Vec<_>>()[..] {
        [(Some(address), Some(size))] => Ok((address, size)),
        _ => Err(format!("it has no {REPLACED}, or several")),
    }
}

fn number(hex: &str) -> Option<u64> {
    u64::from_str_radix(hex, 16).ok()
}

/// The names that a list can have: 1 to 127 bytes, with one address each.
fn distinct(all: Vec<(String, u64)>) -> BTreeMap<String, u64> {
    let mut addresses: BTreeMap<String, BTreeSet<u64>> = BTreeMap::new();
    for (name, address) in all {
        addresses.entry(name).or_default().insert(address);
    }
    let usable = addresses.into_iter().filter(|(name, found)| (1..=127).contains(&name.len()) && found.len() == 1);
    usable.filter_map(|(name, found)| Some((name, found.into_iter().next()?))).collect()
}

fn bytes(hex: &str) -> Result<Vec<u8>, String> {
    let pair = |at| hex.get(at..at + 2).and_then(|pair| u8::from_str_radix(pair, 16).ok());
    (0..hex.len()).step_by(2).map(|at| pair(at).ok_or(format!("{hex} is no id"))).collect()
}
