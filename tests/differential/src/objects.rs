//! Payloads made by gcc, the GNU assembler, linker and objcopy, and what document 01 says of them.

use crate::payloads::assemble::{get, list_bytes};
use crate::payloads::template::{SLOT_BASE, TEXT_BASE, TEXT_LEN};
use crate::payloads::Input;
use crate::second::limits::{BUFFERS, EDIT_ENTRY};
use crate::stated::Stated;
use std::path::Path;
use std::process::Command;

/// What is to be said of an object.
enum Expect {
    /// Accepted, with edits at these addresses of these lengths.
    Edits(&'static [(u64, u8)]),
    /// Refused with a number: in the section of this name (the first), nowhere without one.
    Refused(u64, Option<&'static str>),
    /// Refused with a number in the first section that has these flags.
    RefusedFlag(u64, u64),
    /// Refused with a number at the first relocation of the section of this name.
    RefusedEntry(u64, &'static str),
}

/// An object to make: its source, more words for the compiler, more for the linker, words for a tool to run then.
struct Recipe {
    name: &'static str,
    source: &'static str,
    compile: &'static [&'static str],
    link: &'static [&'static str],
    then: &'static [&'static str],
    expect: Expect,
}

const SOURCES: [(&str, &str); 3] = [
    ("hello.c", include_str!("../objects/hello.c")),
    ("several.c", include_str!("../objects/several.c")),
    ("depends.S", include_str!("../objects/depends.S")),
];

const FLAGS: [&str; 6] =
    ["-O2", "-fPIE", "-fno-asynchronous-unwind-tables", "-fno-stack-protector", "-fcf-protection=none", "-fno-common"];

const HELLO: Expect = Expect::Edits(&[(0xffff_82d0_8013_963c, 5)]);
const SEVERAL: Expect =
    Expect::Edits(&[(0xffff_82d0_8010_4a6a, 5), (0xffff_82d0_8011_0000, 9), (0xffff_82d0_8012_0000, 5)]);

const ID_64: &str = concat!(
    "--build-id=0x",
    "000102030405060708090a0b0c0d0e0f101112131415161718191a1b1c1d1e1f",
    "202122232425262728292a2b2c2d2e2f303132333435363738393a3b3c3d3e3f",
);
const ID_68: &str = concat!(
    "--build-id=0x",
    "000102030405060708090a0b0c0d0e0f101112131415161718191a1b1c1d1e1f",
    "202122232425262728292a2b2c2d2e2f303132333435363738393a3b3c3d3e3f",
    "40414243",
);

const PROPERTY: [&str; 5] = [
    "objcopy", "--add-section", ".note.gnu.property=depends.S", "--set-section-flags",
    ".note.gnu.property=alloc,readonly",
];

fn hello(name: &'static str, compile: &'static [&'static str], expect: Expect) -> Recipe {
    Recipe { name, source: "hello.c", compile, link: &["--build-id=sha1"], then: &[], expect }
}

fn several(name: &'static str, compile: &'static [&'static str], expect: Expect) -> Recipe {
    Recipe { source: "several.c", ..hello(name, compile, expect) }
}

fn linked(name: &'static str, link: &'static [&'static str], expect: Expect) -> Recipe {
    Recipe { link, ..hello(name, &[], expect) }
}

fn later(name: &'static str, then: &'static [&'static str], expect: Expect) -> Recipe {
    Recipe { then, ..several(name, &["-g"], expect) }
}

fn accepted() -> Vec<Recipe> {
    vec![
        hello("hello world", &[], HELLO),
        hello("hello world by address", &["-DBY_ADDRESS"], HELLO),
        hello("hello world, not optimised", &["-O0"], HELLO),
        hello("hello world with debugging information", &["-g"], HELLO),
        hello("hello world, large model", &["-fno-pic", "-mcmodel=large"], HELLO),
        hello("a weak name that is missing", &["-DMISSING=__attribute__((weak))"], HELLO),
        several("several records", &[], SEVERAL),
        several("several records, not optimised", &["-O0"], SEVERAL),
        several("several records with debugging information", &["-g"], SEVERAL),
        several("several records in sections of their own", &["-ffunction-sections", "-fdata-sections"], SEVERAL),
        later("unneeded symbols stripped", &["strip", "--strip-unneeded"], SEVERAL),
        later("debugging information stripped", &["strip", "--strip-debug"], SEVERAL),
        later("the comment removed", &["objcopy", "--remove-section=.comment"], SEVERAL),
        later("text aligned to 4,096", &["objcopy", "--set-section-alignment", ".text=4096"], SEVERAL),
        linked("a build-id of 4 bytes", &["--build-id=0x01020304"], HELLO),
        linked("a build-id of 64 bytes", &[ID_64], HELLO),
    ]
}

fn refused() -> Vec<Recipe> {
    let at = |number, section| Expect::Refused(number, Some(section));
    let aligned = &["objcopy", "--set-section-alignment", ".text=8192"];
    let excluded = &["objcopy", "--set-section-flags", ".data=alloc,exclude"];
    vec![
        later("everything stripped", &["strip", "--strip-all"], Expect::Refused(22, None)),
        later("no dependency", &["objcopy", "--remove-section=.livepatch.depends"], Expect::Refused(22, None)),
        later("text aligned to 8,192", aligned, at(22, ".text")),
        later(
            "compressed debugging information",
            &["objcopy", "--compress-debug-sections"],
            Expect::RefusedFlag(95, 0x800),
        ),
        later("data that a linker would leave out", excluded, Expect::RefusedFlag(95, 0x8000_0000)),
        later("a property note", &PROPERTY, at(95, ".note.gnu.property")),
        hello("unwind tables", &["-fasynchronous-unwind-tables"], at(95, ".eh_frame")),
        hello("a hook", &["-DHOOK"], at(95, ".livepatch.hooks.load")),
        hello("a name that is missing", &["-DMISSING="], Expect::RefusedEntry(3, ".rela.data.rel")),
        hello("kernel model", &["-fno-pic", "-mcmodel=kernel"], Expect::RefusedEntry(95, ".rela.text")),
        linked("no build-id", &[], Expect::Refused(22, None)),
        linked("a build-id of 3 bytes, which ld does not pad", &["--build-id=0x010203"], at(22, ".note.gnu.build-id")),
        linked("a build-id of 68 bytes", &[ID_68], at(22, ".note.gnu.build-id")),
        linked("two dependencies", &["--build-id=sha1", "depends.o"], at(22, ".livepatch.depends")),
    ]
}

/// An object's name, and its input with what is stated of it, or why it could not be made.
pub type Built = (&'static str, Result<(Input, Stated), String>);

/// Makes every object in a folder.
pub fn build(folder: &Path) -> Vec<Built> {
    let mut built = Vec::new();
    let prepared = prepare_folder(folder);
    for recipe in accepted().into_iter().chain(refused()) {
        let made = prepared.clone().and_then(|()| make(folder, &recipe));
        built.push((recipe.name, made.and_then(|file| judged(file, &recipe.expect))));
    }
    built
}

fn prepare_folder(folder: &Path) -> Result<(), String> {
    std::fs::create_dir_all(folder).map_err(|error| error.to_string())?;
    for (name, text) in SOURCES {
        std::fs::write(folder.join(name), text).map_err(|error| error.to_string())?;
    }
    tool(folder, &["gcc", "-c", "depends.S", "-o", "depends.o"])
}

fn make(folder: &Path, recipe: &Recipe) -> Result<Vec<u8>, String> {
    tool(folder, &[&["gcc"], &FLAGS[..], recipe.compile, &["-c", recipe.source, "-o", "source.o"]].concat())?;
    tool(folder, &[&["ld", "-r"], recipe.link, &["source.o", "depends.o", "-o", "payload.o"]].concat())?;
    if !recipe.then.is_empty() {
        tool(folder, &[recipe.then, &["payload.o"]].concat())?;
    }
    std::fs::read(folder.join("payload.o")).map_err(|error| error.to_string())
}

fn tool(folder: &Path, words: &[&str]) -> Result<(), String> {
    let done = Command::new(words[0]).args(&words[1..]).current_dir(folder).output();
    let output = done.map_err(|error| format!("{}: {error}", words[0]))?;
    match output.status.success() {
        true => Ok(()),
        false => Err(format!("{}: {}", words.join(" "), String::from_utf8_lossy(&output.stderr))),
    }
}

fn judged(file: Vec<u8>, expect: &Expect) -> Result<(Input, Stated), String> {
    let mut stated = Stated::accepted();
    match *expect {
        Expect::Edits(edits) => {
            stated.edit_count(edits.len());
            for (index, (address, length)) in edits.iter().enumerate() {
                stated.bytes.push((1, EDIT_ENTRY * index, [&address.to_le_bytes()[..], &[*length, 0, 0, 0]].concat()));
            }
        }
        Expect::Refused(number, None) => refuse(&mut stated, number),
        Expect::Refused(number, Some(name)) => {
            refuse(&mut stated, number + 0x100 + 0x1_0000 * find(&file, |section| section.0 == name.as_bytes())?)
        }
        Expect::RefusedFlag(number, flag) => {
            refuse(&mut stated, number + 0x100 + 0x1_0000 * find(&file, |section| section.1 & flag != 0)?)
        }
        Expect::RefusedEntry(number, name) => {
            stated.prepare = Some(number + 0x200 + 0x1_0000 * find(&file, |section| section.0 == name.as_bytes())?);
        }
    }
    let list = [
        ("do_domctl", 0xffff_82d0_8010_4a6a),
        ("memcpy_from", TEXT_BASE + 0x3_0000),
        ("printk", 0xffff_82d0_8015_fbb9),
    ];
    let mut list: Vec<(Vec<u8>, u64)> = list.iter().map(|(name, at)| (name.as_bytes().to_vec(), *at)).collect();
    list.push((b"xen_extra_version".to_vec(), 0xffff_82d0_8013_963c));
    let (text_base, text_len, slot_base) = (TEXT_BASE, TEXT_LEN, SLOT_BASE);
    Ok((Input { file, list: list_bytes(&list), text_base, text_len, slot_base, buffers: BUFFERS }, stated))
}

fn refuse(stated: &mut Stated, code: u64) {
    (stated.file, stated.prepare) = (Some(code), Some(code));
}

/// The index of the first section whose name and flags are wanted.
fn find(file: &[u8], wanted: impl Fn((&[u8], u64)) -> bool) -> Result<u64, String> {
    let (table, count, names) = (get(file, 40, 8) as usize, get(file, 60, 2) as usize, get(file, 62, 2) as usize);
    let strings = get(file, table + 64 * names + 24, 8) as usize;
    let found = (0..count).find(|index| {
        let row = table + 64 * index;
        let name = &file[strings + get(file, row, 4) as usize..];
        let end = name.iter().position(|byte| *byte == 0).unwrap_or(0);
        wanted((&name[..end], get(file, row + 8, 8)))
    });
    found.map(|index| index as u64).ok_or("the object has no such section".to_string())
}

#[cfg(test)]
mod tests {
    use super::*;
    use crate::alone::faults;

    #[test]
    fn objects_of_the_gnu_tools() {
        let folder = std::env::temp_dir().join(format!("differential-objects-{}", std::process::id()));
        for (name, built) in build(&folder) {
            let (input, stated) = built.unwrap_or_else(|error| panic!("{name}: {error}"));
            assert_eq!(faults(&input, &stated), Vec::<String>::new(), "{name}");
        }
        let _ = std::fs::remove_dir_all(&folder);
    }
}
