//! The objects: sources, commands, and the edits that their records name.

/// What a record changes.
#[derive(Clone, Copy)]
pub enum Edit {
    /// A jump to a function of the payload.
    Jump(&'static str),
    /// That many no-op bytes.
    Fill(usize),
}
use Edit::{Fill, Jump};

type Words = &'static [&'static str];

/// How an object is made: `gcc -c` of each source, `ld -r`, then more commands on payload.o.
pub struct Recipe {
    pub name: &'static str,
    pub sources: Words,
    pub compile: Words,
    pub link: Words,
    pub then: &'static [Words],
    pub id: &'static [u8],
    pub depends: &'static [u8],
    pub edits: &'static [(u64, Edit)],
}

/// The flags of every source; a recipe's own come after them.
pub const FLAGS: Words = &[
    "-O2", "-ffreestanding", "-fPIE", "-fno-asynchronous-unwind-tables", "-fcf-protection=none",
    "-fno-stack-protector", "-fno-common", "-Wall", "-Werror",
];

const ID: &[u8] = &[0x11, 0x22, 0x33, 0x44, 0x55, 0x66, 0x77, 0x88];
const BUILD_ID: Words = &["--build-id=0x1122334455667788"];
/// The id in depends.S.
const DEPENDS: &[u8] = &[0x0b, 0xad, 0xc0, 0xde, 1, 2, 3, 4, 5, 6, 7, 8, 9, 10, 11, 12, 13, 14, 15, 16];

const VERSION: u64 = 0xffff_82d0_8013_963c;
const DOMCTL: u64 = 0xffff_82d0_8010_4a6a;
const PRINTK: u64 = 0xffff_82d0_8015_fbb9;
const TEXT: u64 = 0xffff_82d0_8010_0000;

const HELLO: &[(u64, Edit)] = &[(VERSION, Jump("xen_hello_world"))];
const CALLS: &[(u64, Edit)] =
    &[(DOMCTL, Jump("first")), (PRINTK, Jump("later")), (0xffff_82d0_8011_0000, Jump("tail")), (TEXT, Jump("chosen"))];
const DATA: &[(u64, Edit)] = &[(DOMCTL, Jump("summed"))];
const STRINGS: &[(u64, Edit)] = &[(VERSION, Jump("word")), (DOMCTL, Jump("other"))];
const WEAK: &[(u64, Edit)] = &[(DOMCTL, Jump("announced"))];
const WEAK_CODE: &[(u64, Edit)] = &[(DOMCTL, Jump("announced")), (VERSION, Jump("announced_directly"))];
const FILLS: &[(u64, Edit)] =
    &[(TEXT, Fill(1)), (PRINTK, Fill(9)), (DOMCTL, Jump("replacement")), (0xffff_82d0_802f_ffe1, Fill(31))];
const FIELDS: &[(u64, Edit)] = &[(VERSION, Jump("two")), (0xffff_82d0_802f_fffb, Jump("last"))];

/// The functions of many.c.
const MANY_NAMES: [&str; 32] = [
    "many_00", "many_01", "many_02", "many_03", "many_04", "many_05", "many_06", "many_07", "many_08", "many_09",
    "many_10", "many_11", "many_12", "many_13", "many_14", "many_15", "many_16", "many_17", "many_18", "many_19",
    "many_20", "many_21", "many_22", "many_23", "many_24", "many_25", "many_26", "many_27", "many_28", "many_29",
    "many_30", "many_31",
];
const MANY: &[(u64, Edit)] = &{
    let mut edits = [(TEXT, Fill(0)); 32];
    let mut at = 0;
    while at < edits.len() {
        edits[at] = (TEXT + 0x1000 * at as u64, Jump(MANY_NAMES[at]));
        at += 1;
    }
    edits
};

const BY_ADDRESS: Words = &["-DOLD_ADDRESS=0xffff82d08013963c"];
const NO_COPY: Words = &["-fno-merge-constants"];
const LARGE: Words = &["-fno-pic", "-mcmodel=large"];
const APART: Words = &["-ffunction-sections", "-fdata-sections"];
const JOINED: Words = &["-T", "payload.lds", "--build-id=0x1122334455667788"];

const ADD_NOTE: Words = &["objcopy", "--add-section", ".livepatch.depends=depends.bin", "payload.o"];
const TAKE_NOTE: Words = &["objcopy", "-O", "binary", "--only-section=.livepatch.depends", "payload.o", "depends.bin"];
const DROP_NOTE: Words = &["objcopy", "--remove-section=.livepatch.depends", "payload.o"];
const UNPLACED: &[Words] = &[TAKE_NOTE, DROP_NOTE, ADD_NOTE];
const STRIP: &[Words] = &[&["strip", "--strip-unneeded", "--keep-symbol=word", "--keep-symbol=other", "payload.o"]];

const PLAIN: Recipe = Recipe {
    name: "hello world by name",
    sources: &["hello.c", "depends.S"],
    compile: &[],
    link: BUILD_ID,
    then: &[],
    id: ID,
    depends: DEPENDS,
    edits: HELLO,
};

fn hello(name: &'static str, compile: Words) -> Recipe {
    Recipe { name, compile, ..PLAIN }
}

fn calls(name: &'static str, compile: Words) -> Recipe {
    Recipe { name, compile, sources: &["calls.c", "depends.S"], edits: CALLS, ..PLAIN }
}

fn data(name: &'static str, compile: Words) -> Recipe {
    Recipe { name, compile, sources: &["data.c", "depends.S"], edits: DATA, ..PLAIN }
}

fn strings(name: &'static str, compile: Words) -> Recipe {
    Recipe { name, compile, sources: &["strings.c", "more_strings.c", "depends.S"], edits: STRINGS, ..PLAIN }
}

fn weak(name: &'static str, sources: Words, compile: Words, edits: &'static [(u64, Edit)]) -> Recipe {
    Recipe { name, sources, compile, edits, ..PLAIN }
}

fn own_notes(name: &'static str, sources: Words, edits: &'static [(u64, Edit)]) -> Recipe {
    const ID: &[u8] = &{
        let mut id = [0x5a; 64];
        id[63] = 0xa5;
        id
    };
    Recipe { name, sources, link: &[], id: ID, depends: &[0x77], edits, ..PLAIN }
}

/// Every object.
pub fn all() -> Vec<Recipe> {
    vec![
        hello("hello world by address", BY_ADDRESS),
        PLAIN,
        hello("hello world, not optimised", &["-O0"]),
        calls("calls, functions in sections of their own", &["-ffunction-sections"]),
        calls("calls, one text section", &[]),
        calls("calls, absolute addresses alone", LARGE),
        data("data", &[]),
        data("data, all in sections of their own", APART),
        data("data, absolute addresses alone", LARGE),
        hello("hello world with debugging information", &["-g"]),
        calls("calls with debugging information", &["-g", "-O1", "-ffunction-sections"]),
        weak("weak names, their addresses in data", &["weak.c", "depends.S"], &[], WEAK),
        weak("weak names, their addresses in code", &["weak.c", "weak_code.c", "depends.S"], LARGE, WEAK_CODE),
        Recipe { name: "fills", sources: &["fill.S", "depends.S"], edits: FILLS, ..PLAIN },
        strings("strings", &[]),
        strings("strings, not mergeable", NO_COPY),
        Recipe { then: STRIP, ..strings("strings, stripped", &[]) },
        own_notes("placed notes of type 1", &["notes.S", "hello.c"], HELLO),
        own_notes("placed notes of type 1, at the end", &["calls.c", "notes.S"], CALLS),
        own_notes("thirty-two functions", &["many.c", "notes.S"], MANY),
        Recipe {
            compile: &["-g"],
            ..own_notes("thirty-two functions with debugging information", &["many.c", "notes.S"], MANY)
        },
        Recipe { then: UNPLACED, ..calls("a dependency that is not placed", &[]) },
        Recipe { name: "fields", sources: &["fields.S", "fixed.S", "depends.S"], edits: FIELDS, ..PLAIN },
        Recipe { link: JOINED, ..data("data, joined by a linker script", APART) },
    ]
}
