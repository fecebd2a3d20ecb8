//! SEC: sections by index: name, type, flags, kind, alignment, contents.

use super::{at, nowhere, Expect::Accepted, Table};
use crate::payloads::assemble::{header_field, section_field::*};
use crate::payloads::{Assembled, Contents, Section};

pub fn rows(table: &mut Table) {
    section_zero(table);
    null_sections(table);
    types(table);
    flags(table);
    contents(table);
    wild_contents(table);
    alignments(table);
    names(table);
    last_name(table);
    order(table);
    order_between(table);
    free_fields(table);
    overlaps(table);
}

fn section_zero(t: &mut Table) {
    for kind in [1, 2, 3, 4, 7, 8, 5, 6, 9, 0x100, 0x1_0000, 0x7000_0001, 0xffff_ffff] {
        t.file("SEC-01", format!("section 0 of type {kind:#x}"), at(22, "zero"), move |d| d.set("zero", TYPE, kind));
    }
    t.file("SEC-01", "section 0 of type 5 with unknown flags and no name", at(22, "zero"), |d| {
        d.set("zero", TYPE, 5);
        d.set("zero", FLAGS, u64::MAX);
        d.set("zero", NAME, 0xffff_ffff);
    });
    t.file("SEC-01", "section 0 of type 1 before an unknown type", at(22, "zero"), |d| {
        d.set("zero", TYPE, 1);
        d.set("text", TYPE, 5);
    });
}

fn null_sections(t: &mut Table) {
    for role in ["zero", "gap"] {
        for field in ALL.into_iter().filter(|field| field.at != TYPE.at) {
            for value in [u64::MAX, 3] {
                let name = format!("{role}: type 0 with {value:#x} at {}", field.at);
                t.file("SEC-02", name, Accepted, move |d| d.set(role, field, value));
            }
        }
        t.file("SEC-02", format!("{role}: type 0 with every other field wild"), Accepted, move |d| {
            ALL.into_iter().filter(|field| field.at != TYPE.at).for_each(|field| d.set(role, field, u64::MAX));
        });
    }
    t.file("SEC-02", "a type 0 section named .livepatch.funcs isn't counted", Accepted, |d| {
        d.section("gap").name = b".livepatch.funcs".to_vec();
    });
    t.file("SEC-02", "a last section of type 0", Accepted, |d| {
        d.add(Section::new("last", b".eh_frame", 0, u64::MAX, Contents::Nothing(u64::MAX)));
    });
}

fn types(t: &mut Table) {
    let unknown = [
        5, 6, 9, 10, 11, 12, 13, 14, 15, 16, 17, 18, 19, 0x100, 0x101, 0x1_0000, 0x1_0001, 0x0100_0001, 0x6fff_fff6,
        0x6fff_ffff, 0x7000_0001, 0x8000_0000, 0x8000_0001, 0xffff_ffff,
    ];
    for kind in unknown {
        for role in ["data", "comment", "gap", "symtab", "depends"] {
            t.file("SEC-03", format!("{role} of type {kind:#x}"), at(95, role), move |d| d.set(role, TYPE, kind));
        }
    }
}

fn flags(t: &mut Table) {
    let high = [7, 8, 9, 10, 11, 12, 20, 28, 31, 32, 33, 34, 48, 62, 63].map(|bit| 1u64 << bit);
    for bit in [0x8].into_iter().chain(high) {
        for role in ["data", "bss", "comment", "symtab", "shstrtab", "rela_debug", "build_id"] {
            t.file("SEC-04", format!("{role} with flag {bit:#x}"), at(95, role), move |d| d.section(role).flags |= bit);
        }
    }
}

fn contents(t: &mut Table) {
    for role in [
        "text", "seven", "symtab", "strtab", "rela_text", "rela_debug", "comment", "debug", "funcs", "depends",
        "build_id",
    ] {
        t.file("SEC-05", format!("{role} ends one byte past the file"), at(22, role), move |d| {
            d.then(move |a| {
                let offset = a.file.len() as u64 + 1 - a.get(role, SIZE);
                a.set(role, OFFSET, offset);
            });
        });
    }
    for role in ["text", "seven", "comment", "debug"] {
        t.file("SEC-05", format!("{role} ends with the file"), Accepted, move |d| {
            d.then(move |a| {
                let offset = a.file.len() as u64 - a.get(role, SIZE);
                a.set(role, OFFSET, offset);
            });
        });
    }
    for role in ["stack", "data"] {
        for (past, expect) in [(0, Accepted), (1, at(22, role)), (4096, at(22, role))] {
            t.file("SEC-05", format!("{role} empty, {past} bytes past the file's end"), expect, move |d| {
                d.set(role, SIZE, 0);
                d.then(move |a| a.set(role, OFFSET, a.file.len() as u64 + past));
            });
        }
    }
}

fn wild_contents(t: &mut Table) {
    let wild =
        [(u64::MAX, 1), (u64::MAX, 0), (1, u64::MAX), (1 << 63, 1 << 63), (1 << 32, 1), (0, 1 << 32), (64, 1 << 15)];
    for (offset, size) in wild {
        for role in ["data", "comment", "extra"] {
            t.file("SEC-05", format!("{role} of {size:#x} bytes at {offset:#x}"), at(22, role), move |d| {
                d.set(role, OFFSET, offset);
                d.set(role, SIZE, size);
            });
        }
    }
    for offset in [u64::MAX, 1 << 63, 1 << 15] {
        t.file("SEC-05", format!("type 8 at {offset:#x}"), Accepted, move |d| d.set("bss", OFFSET, offset));
    }
    t.file("SEC-05", "type 8 of another placed name, past the file", Accepted, |d| {
        d.section("data").kind = 8;
        d.set("data", OFFSET, u64::MAX);
    });
}

fn alignments(t: &mut Table) {
    for shift in 0..=12 {
        for role in ["data", "bss", "comment", "symtab"] {
            let value = 1u64 << shift;
            t.file("SEC-06", format!("{role} aligned to {value}"), Accepted, move |d| d.section(role).align = value);
        }
    }
    for role in ["data", "bss", "comment", "symtab", "strtab", "shstrtab", "rela_text", "depends", "funcs"] {
        t.file("SEC-06", format!("{role} aligned to 0"), Accepted, move |d| d.section(role).align = 0);
        let wrong = [3, 5, 6, 7, 12, 4095, 4097, 6144, 8192, 1 << 32, (1 << 32) + 1, 1 << 63, u64::MAX];
        for value in wrong {
            t.file("SEC-06", format!("{role} aligned to {value:#x}"), at(22, role), move |d| {
                d.section(role).align = value
            });
        }
    }
}

/// Copies the section names to the file's end, more bytes after them, and says where in the table those begin.
fn more_names(a: &mut Assembled, more: &[u8]) -> u64 {
    let (offset, names) = (a.file.len() as u64, a.contents("shstrtab").to_vec());
    a.file.extend(&names);
    a.file.extend(more);
    a.set("shstrtab", OFFSET, offset);
    a.set("shstrtab", SIZE, (names.len() + more.len()) as u64);
    names.len() as u64
}

fn names(t: &mut Table) {
    let roles = ["data", "bss", "comment", "symtab", "strtab", "shstrtab", "rela_text", "depends"];
    for role in roles {
        for value in [0xffff_ffff, 0x8000_0000, 0x1_0000] {
            t.file("SEC-07", format!("{role}: sh_name {value:#x}"), at(22, role), move |d| d.set(role, NAME, value));
        }
        t.file("SEC-07", format!("{role}: sh_name is the table's size"), at(22, role), move |d| {
            d.then(move |a| a.set(role, NAME, a.get("shstrtab", SIZE)));
        });
    }
    for (role, expect) in [("extra", Accepted), ("symtab", Accepted), ("rela_text", Accepted), ("data", at(95, "data"))]
    {
        t.file("SEC-07", format!("{role}: sh_name at the table's last byte, a zero"), expect, move |d| {
            d.then(move |a| a.set(role, NAME, a.get("shstrtab", SIZE) - 1));
        });
    }
    t.file("SEC-07", "a name table of no bytes", at(22, "text"), |d| {
        d.put_first("text");
        d.set("shstrtab", SIZE, 0);
    });
}

fn last_name(t: &mut Table) {
    t.file("SEC-07", "a last name with its zero", Accepted, |d| {
        d.then(|a| {
            let at = more_names(a, b".data\0");
            a.set("data", NAME, at);
        });
    });
    t.file("SEC-07", "a last name whose zero stands just past the table", at(22, "data"), |d| {
        d.then(|a| {
            let at = more_names(a, b".data\0");
            let size = a.get("shstrtab", SIZE);
            a.set("shstrtab", SIZE, size - 1);
            a.set("data", NAME, at);
        });
    });
    t.file("SEC-07", "a last name that ends with the file", at(22, "data"), |d| {
        d.then(|a| {
            let at = more_names(a, b".data");
            a.set("data", NAME, at);
        });
    });
    t.file("SEC-07", "a name beyond the table, in the file and ended by zero", at(22, "data"), |d| {
        d.then(|a| {
            let at = more_names(a, b".data\0");
            a.set("shstrtab", SIZE, at);
            a.set("data", NAME, at);
        });
    });
}

/// The faults of one section in document 01's order, with their numbers.
#[derive(Clone, Copy, Debug)]
enum Fault {
    Name,
    Type,
    Flags,
    Kind,
    Alignment,
    Contents,
}

const FAULTS: [(Fault, u64); 6] = [
    (Fault::Name, 22),
    (Fault::Type, 95),
    (Fault::Flags, 95),
    (Fault::Kind, 95),
    (Fault::Alignment, 22),
    (Fault::Contents, 22),
];

fn make(a: &mut Assembled, role: &str, fault: Fault) {
    let flags = a.get(role, FLAGS);
    match fault {
        Fault::Name => a.set(role, NAME, 0xffff_ffff),
        Fault::Type => a.set(role, TYPE, 0x6000_0001),
        Fault::Flags => a.set(role, FLAGS, flags | 0x800),
        Fault::Kind => a.set(role, FLAGS, flags ^ 2),
        Fault::Alignment => a.set(role, ALIGN, 24),
        Fault::Contents => a.set(role, OFFSET, u64::MAX),
    }
}

fn order(t: &mut Table) {
    for role in ["data", "comment", "strtab"] {
        for (place, (first, number)) in FAULTS.into_iter().enumerate() {
            t.file("SEC-08", format!("{role}: {first:?} alone"), at(number, role), move |d| {
                d.then(move |a| make(a, role, first));
            });
            for (second, _) in FAULTS.into_iter().skip(place + 1) {
                t.file("SEC-08", format!("{role}: {first:?} before {second:?}"), at(number, role), move |d| {
                    d.then(move |a| make(a, role, first));
                    d.then(move |a| make(a, role, second));
                });
            }
        }
    }
    t.file("SEC-08", "shstrtab: outside the file before its own name", nowhere(22), |d| {
        d.then(|a| make(a, "shstrtab", Fault::Contents));
        d.then(|a| make(a, "shstrtab", Fault::Flags));
    });
}

fn order_between(t: &mut Table) {
    for (lower, upper) in [("data", "comment"), ("extra", "text")] {
        for (first, number) in FAULTS {
            for (second, _) in FAULTS {
                let name = format!("{first:?} in {lower} before {second:?} in {upper}");
                t.file("SEC-09", name, at(number, lower), move |d| {
                    d.put_before(lower, upper);
                    d.then(move |a| make(a, lower, first));
                    d.then(move |a| make(a, upper, second));
                });
            }
        }
    }
    t.file("SEC-09", "a fault in the last section alone", at(22, "last"), |d| {
        d.add(Section { align: 3, ..Section::new("last", b".debug_x", 1, 0, Contents::Bytes(vec![1])) });
    });
    t.file("SEC-09", "a fault past the last section isn't seen", Accepted, |d| {
        d.add(Section { align: 3, ..Section::new("last", b".eh_frame", 1, 0, Contents::Bytes(vec![1])) });
        d.then(|a| a.set_header(header_field::SECTION_COUNT, a.roles.len() as u64 - 1));
    });
}

fn free_fields(t: &mut Table) {
    for role in ["text", "seven", "bss", "strtab", "shstrtab", "comment", "funcs", "depends", "build_id"] {
        for (what, field) in [("sh_addr", ADDR), ("sh_link", LINK), ("sh_info", INFO), ("sh_entsize", ENTRY_SIZE)] {
            t.file("SEC-10", format!("{role}: wild {what}"), Accepted, move |d| d.set(role, field, u64::MAX));
        }
    }
    for role in ["symtab", "rela_text", "rela_debug"] {
        t.file("SEC-10", format!("{role}: wild sh_addr"), Accepted, move |d| d.set(role, ADDR, u64::MAX));
    }
}

fn overlaps(t: &mut Table) {
    t.file("SEC-11", "text and data share their bytes", Accepted, |d| {
        d.then(|a| a.set("data", OFFSET, a.get("text", OFFSET)));
    });
    t.file("SEC-11", "data is the ELF header", Accepted, |d| {
        d.set("data", OFFSET, 0);
        d.set("data", SIZE, 64);
    });
    t.file("SEC-11", "data is a part of the section table", Accepted, |d| {
        d.then(|a| a.set("data", OFFSET, a.table as u64))
    });
    t.file("SEC-11", "comment is the whole file", Accepted, |d| {
        d.set("comment", OFFSET, 0);
        d.then(|a| a.set("comment", SIZE, a.file.len() as u64));
    });
    t.file("SEC-11", "the section names are the symbol names too", Accepted, |d| {
        d.remove("strtab");
        d.section("symtab").link = crate::payloads::Ref::To("shstrtab");
    });
    t.file("SEC-11", "a string table is the whole file", Accepted, |d| {
        d.set("extra", OFFSET, 0);
        d.then(|a| a.set("extra", SIZE, a.file.len() as u64));
    });
}
