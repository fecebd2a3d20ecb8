//! SMB-13: undefined symbols with weak binding, and what weak binding changes nothing of.

use super::symbols::{more_names, refused, use_new, value};
use super::{entry, record, Expect::Accepted, Expect::Holds, Fact::*, Table};
use crate::payloads::template::PRINTK;
use crate::payloads::{Ref, Relocation, Section, Symbol};

/// A symbol with this binding and type.
fn bound(binding: u8, kind: u8, symbol: Symbol) -> Symbol {
    Symbol { info: 16 * binding + kind, ..symbol }
}

/// An undefined symbol with weak binding.
fn undefined_weak(name: &[u8]) -> Symbol {
    bound(2, 0, Symbol::new(name, Ref::Number(0), 5))
}

pub fn rows(table: &mut Table) {
    bindings(table);
    missing(table);
    elsewhere(table);
    in_range(table);
}

fn bindings(t: &mut Table) {
    for binding in [0, 1, 2, 3, 10, 13] {
        for kind in [0, 1, 2, 4, 10, 15] {
            let (id, expect) = if binding == 2 { ("SMB-13", value(0)) } else { ("SMB-05", refused(3)) };
            t.prepare(id, format!("not listed, binding {binding}, type {kind}"), expect, move |d| {
                use_new(d, bound(binding, kind, Symbol::new(b"missing", Ref::Number(0), 5)));
            });
            t.prepare("SMB-06", format!("listed, binding {binding}, type {kind}"), value(0x1000), move |d| {
                use_new(d, bound(binding, kind, Symbol::new(b"far_away", Ref::Number(0), 5)));
            });
        }
    }
}

fn missing(t: &mut Table) {
    for name in ["", "print", "printk2", "printk ", "Printk", "zzz", "aaa"] {
        t.prepare("SMB-13", format!("the weak name `{name}` isn't listed"), value(0), move |d| {
            use_new(d, undefined_weak(name.as_bytes()));
        });
    }
    for len in [126, 127, 128, 255, 256] {
        let expect = value(if len == 127 { 0x55 } else { 0 });
        t.prepare("SMB-13", format!("a weak name of {len} bytes, one of 127 listed"), expect, move |d| {
            d.list.push((vec![b'z'; 127], 0x55));
            use_new(d, undefined_weak(&vec![b'z'; len]));
        });
    }
    t.prepare("SMB-13", "a weak name and an empty list", entry(3, "rela_text", 1), |d| {
        d.list.clear();
        let symbol = d.add_symbol(undefined_weak(b"printk"));
        let uses = |symbol| Relocation { offset: 8, kind: 1, symbol, addend: 0 };
        d.set_relocations(&[uses(symbol), uses(PRINTK)]);
    });
    let facts = vec![InSection("text", 8, vec![0; 8]), InSection("text", 24, 9u64.to_le_bytes().to_vec())];
    t.prepare("SMB-13", "a weak name used twice, with addends", Holds(facts), |d| {
        let symbol = d.add_symbol(undefined_weak(b"missing"));
        let uses = |offset, addend| Relocation { offset, kind: 1, symbol, addend };
        d.set_relocations(&[uses(8, 0), uses(24, 9)]);
    });
}

/// What weak binding changes nothing of: names without an end, symbols that are defined, records' names.
fn elsewhere(t: &mut Table) {
    t.prepare("SMB-04", "a weak name at the table's end", refused(22), |d| {
        use_new(d, undefined_weak(b"fresh"));
        more_names(d, b"", 0);
    });
    for (more, counted) in [(&b"missing\0"[..], 7), (&b"printk"[..], 6)] {
        t.prepare("SMB-04", format!("a weak name of {counted} bytes without its zero"), refused(22), move |d| {
            use_new(d, undefined_weak(b"fresh"));
            more_names(d, more, counted);
        });
    }
    t.prepare("SMB-04", "a weak name at 2^32 - 1", refused(22), |d| {
        use_new(d, Symbol { name_at: Some(u32::MAX), ..undefined_weak(b"") });
    });
    let defined = [
        ("SMB-03", "absolute", Ref::Number(0xfff1), 9, value(9)),
        ("SMB-07", "common", Ref::Number(0xfff2), 0, refused(95)),
        ("SMB-08", "past the sections", Ref::Number(64), 0, refused(22)),
        ("SMB-09", "in a section that is not placed", Ref::To("debug"), 0, refused(22)),
        ("SMB-10", "in the text", Ref::To("text"), 64, Accepted),
        ("SMB-10", "past the text's end", Ref::To("text"), 65, refused(22)),
    ];
    for (id, what, home, number, expect) in defined {
        t.prepare(id, format!("a weak symbol {what}"), expect, move |d| {
            use_new(d, bound(2, 0, Symbol::new(b"missing", home, number)));
        });
    }
    t.prepare("REC-05", "a record's name that a weak symbol has too", record(3, 0), |d| {
        d.list.retain(|entry| entry.0 != b"xen_extra_version");
        use_new(d, undefined_weak(b"xen_extra_version"));
    });
}

/// The range of a field asks of a weak zero what it asks of any other value.
fn in_range(t: &mut Table) {
    for kind in [2, 4] {
        t.prepare("SMB-13", format!("type {kind} of a weak name, far from address 0"), refused(34), move |d| {
            let symbol = d.add_symbol(undefined_weak(b"missing"));
            d.set_relocations(&[Relocation { offset: 8, kind, symbol, addend: -4i64 as u64 }]);
        });
        for (slot_base, stored) in [(4096, -4096i32 - 64 - 4), (0u64.wrapping_sub(8192), 8192 - 64 - 4)] {
            let facts = vec![Image(64, stored.to_le_bytes().to_vec())];
            let what = format!("type {kind} of a weak name in the slot at {slot_base:#x}");
            t.prepare("SMB-13", what, Holds(facts), move |d| {
                d.slim();
                d.slot_base = slot_base;
                d.add_bytes("data", ".data", 1, &[9; 8]);
                let symbol = d.add_symbol(undefined_weak(b"missing"));
                let field = Relocation { offset: 0, kind, symbol, addend: -4i64 as u64 };
                d.add(Section::relocations("rela", b"", Ref::To("data"), vec![field]));
            });
        }
    }
}
