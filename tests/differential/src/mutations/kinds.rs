//! KND: kinds of sections.

use super::{at, Expect::Accepted, Expect::FileAccepted, Table};
use crate::payloads::assemble::section_field::{FLAGS, NAME, TYPE};
use crate::payloads::{Contents, Draft, Section};

/// Adds a section to judge.
fn judge(draft: &mut Draft, name: &[u8], kind: u32, flags: u64) {
    draft.add(Section::new("judged", name, kind, flags, Contents::Bytes(vec![0; 24])));
}

const NOTES: [(&str, &str); 2] = [("depends", ".livepatch.depends"), ("build_id", ".note.gnu.build-id")];

pub fn rows(table: &mut Table) {
    placed_names(table);
    functions(table);
    notes(table);
    read_sections(table);
    ignored(table);
    null_sections(table);
    anything_else(table);
    flags(table);
    names_in_names(table);
}

fn placed_names(t: &mut Table) {
    let good = [
        ".text", ".text.x", ".text..", ".text. ", ".text.unlikely.", ".rodata", ".rodata.str1.1", ".rodata.cst16",
        ".data", ".data.rel.ro", ".data.rel.ro.local", ".bss", ".bss.x", ".bss..x", ".text.livepatch.funcs",
    ];
    for name in good {
        t.file("KND-01", format!("`{name}` placed"), Accepted, move |d| judge(d, name.as_bytes(), 1, 2));
        for kind in [1, 7, 8, 0x11] {
            let expect = if kind == 0x11 { at(95, "judged") } else { Accepted };
            t.file("KND-02", format!("`{name}` of type {kind}"), expect, move |d| judge(d, name.as_bytes(), kind, 3));
        }
        for kind in [1, 7, 8] {
            t.file("KND-01", format!("`{name}` of type {kind} without flag 0x2"), at(95, "judged"), move |d| {
                judge(d, name.as_bytes(), kind, 5)
            });
        }
    }
    let bad = [
        ".text.", ".rodata.", ".data.", ".bss.", ".textx", ".text_x", ".text1", ".rodata1", ".data1", ".bss1", ".tex",
        ".rodat", ".dat", ".bs", "text", "data", ".Text", ".TEXT", "", ".", "..text", " .text", ".text ", ".texT.x",
        "x.text", ".text\x01", ".sdata", ".tdata", ".rodataa.x", ".rel.data",
    ];
    for name in bad {
        for kind in [1, 7, 8] {
            t.file("KND-01", format!("`{}` of type {kind}", name.escape_default()), at(95, "judged"), move |d| {
                judge(d, name.as_bytes(), kind, 2)
            });
        }
    }
}

fn functions(t: &mut Table) {
    for kind in [7, 8, 2, 3, 4] {
        t.file("KND-03", format!("funcs of type {kind}"), at(95, "funcs"), move |d| d.set("funcs", TYPE, kind));
    }
    for flags in [0, 1, 4, 0x75] {
        t.file("KND-03", format!("funcs with flags {flags:#x}"), at(95, "funcs"), move |d| {
            d.section("funcs").flags = flags
        });
    }
    for name in [
        ".livepatch.funcs.x", ".livepatch.func", ".livepatch.funcs.", ".livepatch", ".livepatch.Funcs",
        "livepatch.funcs",
    ] {
        t.file("KND-03", format!("`{name}`"), at(95, "judged"), move |d| judge(d, name.as_bytes(), 1, 2));
    }
}

fn notes(t: &mut Table) {
    for (role, name) in NOTES {
        for kind in [1, 7] {
            t.file("KND-04", format!("{role} of type {kind}, placed"), Accepted, move |d| {
                d.section(role).kind = kind;
                d.section(role).flags = 2;
            });
            t.file("KND-05", format!("{role} of type {kind}, not placed"), Accepted, move |d| {
                d.section(role).kind = kind;
                d.section(role).flags = 0;
            });
        }
        for (id, kind, flags) in
            [("KND-04", 8, 2), ("KND-05", 8, 0), ("KND-06", 2, 0), ("KND-06", 3, 0), ("KND-06", 4, 0)]
        {
            t.file(id, format!("{role} of type {kind} with flags {flags}"), at(95, role), move |d| {
                d.set(role, TYPE, kind);
                d.set(role, FLAGS, flags);
            });
        }
        for more in ["x", ".x", " "] {
            t.file("KND-04", format!("`{name}{more}`"), at(95, "judged"), move |d| {
                judge(d, format!("{name}{more}").as_bytes(), 7, 2)
            });
        }
        t.file("KND-04", format!("{name} without its last byte"), at(95, "judged"), move |d| {
            judge(d, &name.as_bytes()[..name.len() - 1], 7, 2)
        });
    }
}

fn read_sections(t: &mut Table) {
    for (role, kind) in
        [("symtab", 2), ("extra", 3), ("rela_text", 4), ("shstrtab", 3), ("strtab", 3), ("rela_debug", 4)]
    {
        for flags in [2, 3, 0x72] {
            t.file("KND-06", format!("{role} (type {kind}) with flags {flags:#x}"), at(95, role), move |d| {
                d.section(role).flags = flags;
            });
        }
        for flags in [1, 4, 0x10, 0x20, 0x40, 0x75] {
            t.file("KND-06", format!("{role} (type {kind}) with flags {flags:#x}"), Accepted, move |d| {
                d.section(role).flags = flags;
            });
        }
        for name in [".livepatch.funcs", ".livepatch.depends", ".note.gnu.build-id"] {
            t.file("KND-06", format!("{role} (type {kind}) named `{name}`"), at(95, role), move |d| {
                d.section(role).name = name.as_bytes().to_vec();
            });
        }
        for name in
            ["", ".text", ".comment", ".livepatch.funcs.x", ".livepatch.hooks.load", ".ex_table", ".bss", "\u{ff}"]
        {
            t.file("KND-06", format!("{role} (type {kind}) named `{name}`"), Accepted, move |d| {
                d.section(role).name = name.as_bytes().to_vec();
            });
        }
    }
}

fn ignored(t: &mut Table) {
    for name in [".comment", ".note.GNU-stack", ".debug_", ".debug_info", ".debug_str.dwo", ".debug__", ".debug_\x01"] {
        let shown = name.escape_default().to_string();
        t.file("KND-07", format!("`{shown}` ignored"), Accepted, move |d| judge(d, name.as_bytes(), 1, 0));
        t.file("KND-10", format!("`{shown}` ignored with flags 0x75"), Accepted, move |d| {
            judge(d, name.as_bytes(), 1, 0x75)
        });
        for (kind, flags) in [(7, 0), (8, 0), (1, 2), (7, 2), (8, 2)] {
            t.file("KND-07", format!("`{shown}` of type {kind} with flags {flags}"), at(95, "judged"), move |d| {
                judge(d, name.as_bytes(), kind, flags)
            });
        }
    }
    let others = [
        ".comment.x", ".commen", ".comments", "comment", ".debug", ".debug.x", ".debugx", ".Debug_x",
        ".note.GNU-stackx", ".note.GNU-stac", ".note.gnu-stack", ".note", ".zdebug_info", "", ".note.GNU-stack.",
        "x.debug_info",
    ];
    for name in others {
        t.file("KND-07", format!("`{name}` not ignored"), at(95, "judged"), move |d| judge(d, name.as_bytes(), 1, 0));
    }
}

fn null_sections(t: &mut Table) {
    for name in [".livepatch.funcs", ".livepatch.depends", ".note.gnu.build-id", ".symtab", ".eh_frame", ".text"] {
        t.file("KND-08", format!("a type 0 section named `{name}`"), Accepted, move |d| {
            judge(d, name.as_bytes(), 0, 2)
        });
    }
}

fn anything_else(t: &mut Table) {
    let names = [
        ".livepatch.hooks.load", ".livepatch.hooks.unload", ".livepatch.hooks", ".livepatch.xen_depends",
        ".livepatch.depend", ".ex_table", ".altinstructions", ".altinstr_replacement", ".bug_frames.0",
        ".bug_frames.3", ".eh_frame", ".init.text", ".init_array", ".fini", ".note.gnu.property", ".note.Xen", ".tbss",
        ".strtab", ".symtab", ".rela.text", ".group", ".llvm_addrsig", ".got", ".plt", ".smp_locks", ".fixup",
        ".modinfo", ".xsplice.funcs", ".lto.x", ".gnu.linkonce.t.x",
    ];
    for name in names {
        for (kind, flags) in [(1, 2), (1, 6), (1, 0), (7, 2), (7, 0), (8, 3), (8, 0)] {
            t.file("KND-09", format!("`{name}` of type {kind} with flags {flags}"), at(95, "judged"), move |d| {
                judge(d, name.as_bytes(), kind, flags)
            });
        }
    }
    t.file("KND-09", "an empty `.eh_frame`", at(95, "judged"), |d| {
        d.add(Section::new("judged", b".eh_frame", 1, 2, Contents::Bytes(Vec::new())));
    });
}

fn flags(t: &mut Table) {
    for role in ["text", "data", "bss", "funcs", "depends", "seven"] {
        for bits in [0, 1, 4, 5, 0x10, 0x20, 0x40, 0x75] {
            t.file("KND-10", format!("{role} with flags {:#x}", bits | 2), Accepted, move |d| {
                d.section(role).flags = bits | 2
            });
        }
    }
    t.file("KND-10", "stack with flag 0x4", Accepted, |d| d.section("stack").flags = 4);
}

fn names_in_names(t: &mut Table) {
    t.file("KND-11", "`.text` inside `.rela.text`", Accepted, |d| {
        d.then(|a| a.set("data", NAME, a.get("rela_text", NAME) + 5))
    });
    t.file("KND-11", "`.livepatch.funcs` inside `.rela.livepatch.funcs`", Accepted, |d| {
        d.then(|a| a.set("funcs", NAME, a.get("rela_funcs", NAME) + 5));
    });
    t.file("KND-11", "`rela.text` inside `.rela.text`", at(95, "data"), |d| {
        d.then(|a| a.set("data", NAME, a.get("rela_text", NAME) + 1));
    });
    t.file("KND-11", "`.str1.1` inside `.rodata.str1.1`", at(95, "strings"), |d| {
        d.then(|a| a.set("strings", NAME, a.get("strings", NAME) + 7));
    });
    t.file("KND-11", "a type 3 section by the end of a name", FileAccepted, |d| {
        d.then(|a| a.set("extra", NAME, a.get("extra", NAME) + 3));
    });
}
