//! CNT: what a payload has exactly once, the symbol table's header, the size of the records' section.

use super::{at, nowhere, Expect::Accepted, Expect::FileAccepted, Expect::Holds, Fact::Edits, Table};
use crate::payloads::assemble::section_field::*;
use crate::payloads::{Contents, Draft, Ref, Section};

/// Adds a copy of a section.
fn double(draft: &mut Draft, role: &str) {
    let copy = Section { role: "copy", ..draft.section(role).clone() };
    draft.add(copy);
}

/// Makes a section count for nothing.
fn drop(draft: &mut Draft, role: &'static str) {
    draft.set(role, TYPE, 0);
}

pub fn rows(table: &mut Table) {
    symbol_tables(table);
    symbol_table_header(table);
    free(table);
    three_names(table);
    record_sizes(table);
    order(table);
    order_of_counts(table);
}

fn symbol_tables(t: &mut Table) {
    t.file("CNT-01", "no type 2 section", nowhere(22), |d| drop(d, "symtab"));
    t.file("CNT-01", "two type 2 sections", nowhere(22), |d| double(d, "symtab"));
    t.file("CNT-01", "two type 2 sections, one of them broken", nowhere(22), |d| {
        double(d, "symtab");
        d.set("copy", ENTRY_SIZE, 23);
    });
    t.file("CNT-01", "three type 2 sections", nowhere(22), |d| {
        double(d, "symtab");
        double(d, "symtab");
    });
}

fn symbol_table_header(t: &mut Table) {
    for value in [0, 16, 23, 25, 48, 24 << 8, (1 << 32) + 24, u64::MAX] {
        t.file("CNT-02", format!("entry size {value:#x}"), at(22, "symtab"), move |d| {
            d.set("symtab", ENTRY_SIZE, value)
        });
    }
    for value in [1, 12, 23, 25, 47, 49] {
        t.file("CNT-02", format!("size {value}"), at(22, "symtab"), move |d| d.set("symtab", SIZE, value));
    }
    for value in [0, 24, 48] {
        t.file("CNT-02", format!("size {value}"), FileAccepted, move |d| d.set("symtab", SIZE, value));
    }
    for role in ["zero", "gap", "text", "seven", "bss", "symtab", "rela_text", "comment", "funcs", "depends"] {
        t.file("CNT-02", format!("link to {role}"), at(22, "symtab"), move |d| {
            d.section("symtab").link = Ref::To(role)
        });
    }
    for link in [64, 255, 256, 0xffff, 0x1_0000, 0xffff_ffff] {
        t.file("CNT-02", format!("link {link:#x}"), at(22, "symtab"), move |d| d.set("symtab", LINK, link));
    }
    t.file("CNT-02", "link is e_shnum", at(22, "symtab"), |d| d.set("symtab", LINK, d.sections.len() as u64));
    t.file("CNT-02", "link with a high byte", at(22, "symtab"), |d| {
        d.set("symtab", LINK, d.index("strtab") as u64 + (1 << 16))
    });
    t.file("CNT-02", "link to a section dropped to type 0", at(22, "symtab"), |d| drop(d, "strtab"));
}

fn free(t: &mut Table) {
    for value in [0, 1, u64::MAX] {
        t.file("CNT-03", format!("sh_info of the symbol table {value:#x}"), Accepted, move |d| {
            d.set("symtab", INFO, value)
        });
    }
    t.file("CNT-03", "wild entry 0", Accepted, |d| d.then(|a| a.contents("symtab")[..24].fill(0xff)));
    t.file("CNT-03", "link to the section names", FileAccepted, |d| d.section("symtab").link = Ref::To("shstrtab"));
    t.file("CNT-03", "link to a table with no zero", FileAccepted, |d| d.section("symtab").link = Ref::To("extra"));
    t.file("CNT-06", "no type 4 section", FileAccepted, |d| {
        ["rela_text", "rela_funcs", "rela_debug"].into_iter().for_each(|role| drop(d, role));
    });
    t.file("CNT-06", "a symbol table of type 0 more", Accepted, |d| {
        double(d, "symtab");
        d.set("copy", TYPE, 0);
    });
    for role in ["text", "bss", "strtab", "rela_debug", "comment"] {
        t.file("CNT-06", format!("two of {role}"), Accepted, move |d| double(d, role));
    }
}

fn three_names(t: &mut Table) {
    for role in ["funcs", "depends", "build_id"] {
        t.file("CNT-04", format!("no {role}"), nowhere(22), move |d| drop(d, role));
        t.file("CNT-04", format!("two of {role}"), nowhere(22), move |d| double(d, role));
        t.file("CNT-04", format!("three of {role}"), nowhere(22), move |d| {
            double(d, role);
            double(d, role);
        });
    }
    t.file("CNT-04", "two of depends, one placed and one not", nowhere(22), |d| {
        double(d, "depends");
        d.section("copy").flags ^= 2;
    });
    t.file("CNT-04", "two of build_id, the second of no use", nowhere(22), |d| {
        double(d, "build_id");
        d.section("copy").contents = Contents::Bytes(Vec::new());
    });
}

fn record_sizes(t: &mut Table) {
    for size in [0, 1, 32, 63, 65, 127, 129, 1087, 1089, 2047, 2049, 2111, 2112, 2113, 2176, 4096] {
        t.file("CNT-05", format!("funcs of {size} bytes"), at(22, "funcs"), move |d| d.bytes("funcs").resize(size, 0));
    }
    for size in [64, 1024, 1088, 1984, 2048] {
        t.file("CNT-05", format!("funcs of {size} bytes"), FileAccepted, move |d| d.bytes("funcs").resize(size, 0));
    }
    for count in 1..=32u64 {
        t.file("CNT-05", format!("{count} records"), Holds(vec![Edits(count as usize)]), move |d| {
            d.reserve_records(count);
        });
    }
    for count in [33, 34, 64] {
        t.file("CNT-05", format!("{count} records"), at(22, "funcs"), move |d| {
            d.reserve_records(count);
        });
    }
}

fn order(t: &mut Table) {
    for role in ["data", "comment"] {
        t.file("CNT-07", format!("an unknown type in {role} before two symbol tables"), at(95, role), move |d| {
            double(d, "symtab");
            d.set(role, TYPE, 5);
        });
        t.file(
            "CNT-07",
            format!("a wrong alignment in {role} before a missing symbol table"),
            at(22, role),
            move |d| {
                drop(d, "symtab");
                d.set(role, ALIGN, 3);
            },
        );
    }
    t.file("CNT-07", "a wrong last section before no depends", at(95, "last"), |d| {
        drop(d, "depends");
        d.add(Section::new("last", b".eh_frame", 1, 2, Contents::Bytes(vec![0; 8])));
    });
    t.file("CNT-07", "no depends before a wrong type 4 header", nowhere(22), |d| {
        drop(d, "depends");
        d.set("rela_text", ENTRY_SIZE, 23);
    });
    t.file("CNT-07", "the records' size before a wrong type 4 header", at(22, "funcs"), |d| {
        d.put_before("rela_text", "funcs");
        d.set("funcs", SIZE, 63);
        d.set("rela_text", ENTRY_SIZE, 23);
    });
}

fn order_of_counts(t: &mut Table) {
    t.file("O-55", "the symbol table's header before no depends", at(22, "symtab"), |d| {
        drop(d, "depends");
        d.set("symtab", ENTRY_SIZE, 23);
    });
    t.file("O-55", "the symbol table's header before the records' size", at(22, "symtab"), |d| {
        d.put_before("funcs", "symtab");
        d.set("funcs", SIZE, 63);
        d.set("symtab", ENTRY_SIZE, 23);
    });
    t.file("O-55", "two build-ids before the records' size", nowhere(22), |d| {
        double(d, "build_id");
        d.set("funcs", SIZE, 63);
    });
    t.file("O-55", "two symbol tables before no funcs", nowhere(22), |d| {
        double(d, "symtab");
        drop(d, "funcs");
    });
}
