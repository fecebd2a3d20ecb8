//! What GNU ld makes of a payload: its placed sections linked at the addresses of the slot.

use crate::elf::{rounded_up, sections, Section, ALLOC, MERGE};
use crate::tools::{read, symbols, tool, write};
use std::collections::BTreeMap;
use std::path::Path;

/// A section and its offset in the slot.
pub struct Placed {
    pub offset: u64,
    pub section: Section,
}

impl Placed {
    pub fn end(&self) -> u64 {
        self.offset + self.section.bytes.len() as u64
    }
}

/// What ld wrote.
pub struct Linked {
    pub sections: Vec<Section>,
    pub symbols: Vec<(String, u64)>,
}

impl Linked {
    pub fn symbol(&self, wanted: &str) -> Result<u64, String> {
        let found: Vec<u64> = self.symbols.iter().filter(|(name, _)| name == wanted).map(|(_, at)| *at).collect();
        match found[..] {
            [address] => Ok(address),
            _ => Err(format!("ld's output has {} symbols {wanted}", found.len())),
        }
    }
}

/// The sections with flag 0x2, in index order, each at the next multiple of its alignment.
pub fn placed(all: &[Section]) -> Result<Vec<Placed>, String> {
    let mut result: Vec<Placed> = Vec::new();
    for section in all.iter().filter(|section| section.flags & ALLOC != 0) {
        if result.iter().any(|other| other.section.name == section.name) {
            return Err(format!("two sections {}: ld would join them", section.name));
        }
        let end = result.last().map_or(0, Placed::end);
        result.push(Placed { offset: rounded_up(end, section.align.max(1)), section: section.clone() });
    }
    Ok(result)
}

/// Links the folder's payload.o for a slot. `outside` has the words that tell ld the addresses of names outside.
pub fn link(folder: &Path, placed: &[Placed], slot: u64, outside: &[String]) -> Result<Linked, String> {
    copy(folder, placed)?;
    write(folder, "slot.lds", script(placed, slot).as_bytes())?;
    let words =
        "ld -static -no-pie --no-relax --no-gc-sections --build-id=none -e 0 -z noexecstack --no-warn-rwx-segments";
    let mut words: Vec<String> = words.split(' ').map(String::from).collect();
    words.extend(outside.iter().cloned());
    words.extend(["-T", "slot.lds", "copy.o", "-o", "linked"].map(String::from));
    tool(folder, &words)?;
    Ok(Linked { sections: sections(&read(folder, "linked")?)?, symbols: symbols(folder, "linked")? })
}

const BUILD_ID: &str = ".note.gnu.build-id";

/// The name of the payload's id in the copy for ld, which leaves out input sections of the name that its own note has.
const RENAMED: &str = ".own_id";

/// A copy of the payload for ld, in which strings to be merged are plain data: ld would keep one of equal strings, and
/// the loader places a section as it is. The payload itself keeps its flags and names.
fn copy(folder: &Path, placed: &[Placed]) -> Result<(), String> {
    let mut words = vec!["objcopy".to_string(), format!("--rename-section={BUILD_ID}={RENAMED}")];
    for part in placed.iter().filter(|part| part.section.flags & MERGE != 0) {
        words.push(format!("--set-section-flags={}=alloc,load,readonly,data,contents", part.section.name));
    }
    words.extend(["payload.o", "copy.o"].map(String::from));
    tool(folder, &words).map(|_| ())
}

/// A linker script with each placed section at its address.
fn script(placed: &[Placed], slot: u64) -> String {
    let row = |part: &Placed| {
        let name = part.section.name.as_str();
        let input = if name == BUILD_ID { RENAMED } else { name };
        format!("    {name} {:#x} : {{ copy.o({input}) }}\n", slot + part.offset)
    };
    format!("SECTIONS\n{{\n{}}}\n", placed.iter().map(row).collect::<String>())
}

/// The words that give ld the addresses of names.
pub fn defined(names: &[(&str, u64)]) -> Vec<String> {
    names.iter().map(|(name, address)| format!("--defsym={name}={address:#x}")).collect()
}

/// Sections by name.
pub fn by_name(linked: &Linked) -> BTreeMap<&str, &Section> {
    linked.sections.iter().map(|section| (section.name.as_str(), section)).collect()
}
