//! T4H: the headers of type 4 sections.

use super::{at, Expect::Accepted, Table};
use crate::payloads::assemble::section_field::*;
use crate::payloads::{Contents, Ref, Relocation, Section};

pub fn rows(table: &mut Table) {
    links(table);
    sizes(table);
    targets(table);
    wrong_targets(table);
    ignored_targets(table);
    order(table);
}

fn links(t: &mut Table) {
    for role in ["rela_text", "rela_debug"] {
        for to in ["zero", "gap", "strtab", "shstrtab", "text", "rela_funcs", "comment"] {
            t.file("T4H-01", format!("{role} links to {to}"), at(22, role), move |d| {
                d.section(role).link = Ref::To(to)
            });
        }
        for link in [64, 0xffff, 0xffff_ffff] {
            t.file("T4H-01", format!("{role} links to {link:#x}"), at(22, role), move |d| d.set(role, LINK, link));
        }
        t.file("T4H-01", format!("{role} links with a high byte"), at(22, role), move |d| {
            d.set(role, LINK, d.index("symtab") as u64 + (1 << 16));
        });
    }
}

fn sizes(t: &mut Table) {
    for role in ["rela_text", "rela_debug"] {
        for value in [0, 8, 16, 23, 25, 48, (1 << 32) + 24] {
            t.file("T4H-02", format!("{role}: entry size {value:#x}"), at(22, role), move |d| {
                d.set(role, ENTRY_SIZE, value)
            });
        }
        for value in [1, 12, 23, 25, 47] {
            t.file("T4H-03", format!("{role}: size {value}"), at(22, role), move |d| d.set(role, SIZE, value));
        }
        for value in [0, 24, 48] {
            t.file("T4H-03", format!("{role}: size {value}"), Accepted, move |d| d.set(role, SIZE, value));
        }
    }
}

fn targets(t: &mut Table) {
    for role in ["data", "seven", "strings", "funcs", "text"] {
        t.file("T4H-04", format!("target {role}"), Accepted, move |d| {
            d.set_relocations(&[Relocation { kind: 0, ..Relocation::default() }]);
            d.section("rela_text").info = Ref::To(role);
        });
    }
    for role in ["comment", "stack", "debug"] {
        t.file("T4H-04", format!("target {role}, ignored"), Accepted, move |d| {
            d.section("rela_text").info = Ref::To(role)
        });
    }
    t.file("T4H-04", "a type 4 section before its target", Accepted, |d| d.put_before("rela_text", "text"));
    t.file("T4H-04", "a type 4 section after its target", Accepted, |d| d.put_before("text", "rela_text"));
    t.file("T4H-06", "two type 4 sections of one target", Accepted, |d| {
        d.add(Section::relocations("again", b".rela.text", Ref::To("text"), vec![Relocation::default()]));
    });
    t.file("T4H-06", "two type 4 sections of one ignored target", Accepted, |d| {
        d.add(Section::relocations(
            "again",
            b"",
            Ref::To("debug"),
            vec![Relocation { kind: 77, ..Relocation::default() }],
        ));
    });
    t.file("T4H-06", "type 4 without flag 0x40", Accepted, |d| d.section("rela_text").flags = 0);
}

fn wrong_targets(t: &mut Table) {
    for role in ["rela_text", "rela_debug"] {
        let wrong =
            ["zero", "gap", "bss", "symtab", "strtab", "shstrtab", "rela_funcs", "rela_text", "depends", "build_id"];
        for to in wrong {
            t.file("T4H-04", format!("{role} has target {to}"), at(22, role), move |d| {
                d.section(role).info = Ref::To(to)
            });
        }
        for info in [64, 255, 0xffff, 0xfff1, 0x8000_0000, 0xffff_ffff] {
            t.file("T4H-04", format!("{role} has target {info:#x}"), at(22, role), move |d| d.set(role, INFO, info));
        }
        t.file("T4H-04", format!("{role} has target e_shnum"), at(22, role), move |d| {
            d.set(role, INFO, d.sections.len() as u64);
        });
        t.file("T4H-04", format!("{role} has a target with a high byte"), at(22, role), move |d| {
            d.set(role, INFO, d.index("text") as u64 + (1 << 16));
        });
        for (note, placed) in [("depends", 2), ("depends", 0), ("build_id", 2), ("build_id", 0)] {
            t.file("T4H-04", format!("{role} has target {note} with flags {placed}"), at(22, role), move |d| {
                d.section(note).flags = placed;
                d.section(role).info = Ref::To(note);
            });
        }
        for name in [".text", ".data.x"] {
            t.file("T4H-04", format!("{role} has a target `{name}` of type 8"), at(22, role), move |d| {
                d.add(Section::new("target", name.as_bytes(), 8, 2, Contents::Nothing(64)));
                d.section(role).info = Ref::To("target");
            });
        }
        t.file("T4H-04", format!("{role} with no entries has a wrong target"), at(22, role), move |d| {
            d.set(role, SIZE, 0);
            d.set(role, INFO, 0);
        });
    }
}

fn ignored_targets(t: &mut Table) {
    let entries: [(&str, Relocation); 4] = [
        ("unknown type", Relocation { offset: 0, kind: 99, symbol: 1, addend: 0 }),
        ("wild symbol", Relocation { offset: 0, kind: 1, symbol: u32::MAX, addend: 0 }),
        ("broken symbol", Relocation { offset: 0, kind: 1, symbol: 6, addend: 0 }),
        ("wild field", Relocation { offset: u64::MAX, kind: 1, symbol: 1, addend: 0 }),
    ];
    for (what, entry) in entries {
        for role in ["debug", "comment", "stack"] {
            t.file("T4H-05", format!("{what} in relocations of {role}"), Accepted, move |d| {
                *d.relocations("rela_debug") = vec![entry; 3];
                d.section("rela_debug").info = Ref::To(role);
            });
        }
    }
    t.file("T4H-05", "relocations of debug that are other bytes of the file", Accepted, |d| {
        d.set("rela_debug", OFFSET, 0);
        d.set("rela_debug", SIZE, 24 * 10);
    });
}

fn order(t: &mut Table) {
    let pairs = [
        ("rela_text", "rela_funcs"),
        ("rela_funcs", "rela_text"),
        ("rela_debug", "rela_text"),
        ("rela_text", "rela_debug"),
    ];
    for (lower, upper) in pairs {
        t.file("T4H-04", format!("{lower}'s target before {upper}'s link"), at(22, lower), move |d| {
            d.put_before(lower, upper);
            d.set(lower, INFO, 0);
            d.set(upper, LINK, 0);
        });
    }
    for note in ["depends", "build_id"] {
        t.file(
            "O-62",
            format!("a type 4 header before a broken {note} of lower index"),
            at(22, "rela_text"),
            move |d| {
                d.put_before(note, "rela_text");
                d.bytes(note)[0] = 5;
                d.set("rela_text", INFO, 0);
            },
        );
        t.file(
            "O-62",
            format!("relocations of debug before a broken {note} of lower index"),
            at(22, "rela_debug"),
            move |d| {
                d.put_before(note, "rela_debug");
                d.bytes(note)[0] = 5;
                d.set("rela_debug", ENTRY_SIZE, 0);
            },
        );
    }
}
