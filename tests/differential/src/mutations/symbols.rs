//! SMB: the symbols that relocations use; SYM-11: their names in the list.

use super::{entry, Expect, Expect::Accepted, Expect::Holds, Fact::*, Table};
use crate::payloads::assemble::put;
use crate::payloads::assemble::section_field::{OFFSET, SIZE};
use crate::payloads::template::PRINTK;
use crate::payloads::{Draft, Record, Ref, Relocation, Section, Symbol};

/// Lets the text section's one relocation, of type 1 at offset 8, use a symbol.
fn use_symbol(draft: &mut Draft, symbol: u32) {
    draft.set_relocations(&[Relocation { offset: 8, kind: 1, symbol, addend: 0 }]);
}

/// Lets that relocation use a new symbol.
pub(super) fn use_new(draft: &mut Draft, symbol: Symbol) {
    let number = draft.add_symbol(symbol);
    use_symbol(draft, number);
}

/// Refused with a number at that relocation.
pub(super) fn refused(number: u64) -> Expect {
    entry(number, "rela_text", 0)
}

/// Accepted, with this value stored.
pub(super) fn value(value: u64) -> Expect {
    Holds(vec![InSection("text", 8, value.to_le_bytes().to_vec())])
}

pub fn rows(table: &mut Table) {
    numbers(table);
    absolute(table);
    undefined(table);
    listed(table);
    names(table);
    indices(table);
    values(table);
    free(table);
}

fn numbers(t: &mut Table) {
    t.prepare("SMB-01", "symbol 0 is 0", value(0), |d| use_symbol(d, 0));
    t.prepare("SMB-01", "symbol 0 is 0, entry 0 wild", value(0), |d| {
        use_symbol(d, 0);
        d.then(|a| a.contents("symtab")[..24].fill(0xff));
    });
    t.prepare("SMB-01", "symbol 0 is 0, no symbols at all", value(0), |d| {
        use_symbol(d, 0);
        d.set_records(&[Record::new(0, d.text_base, 1, 1)]);
        d.set("symtab", SIZE, 0);
    });
    t.prepare("SMB-02", "the last symbol", value(77), |d| use_new(d, Symbol::new(b"last", Ref::Number(0xfff1), 77)));
    for past in [0, 1, 100] {
        t.prepare("SMB-02", format!("symbol {past} past the last"), refused(22), move |d| {
            let count = d.symbols.len() as u32;
            use_symbol(d, count + past);
        });
    }
    for symbol in [256 + 1, 0x1_0001, 0x8000_0001, 0x0aaa_aaab, u32::MAX] {
        t.prepare("SMB-02", format!("symbol {symbol:#x}"), refused(22), move |d| use_symbol(d, symbol));
    }
    t.prepare("SMB-02", "symbol 1 of a table of one entry", refused(22), |d| {
        use_symbol(d, 1);
        d.set_records(&[Record::new(0, d.text_base, 1, 1)]);
        d.set("symtab", SIZE, 24);
    });
}

fn absolute(t: &mut Table) {
    for number in [0, 1, 1 << 63, u64::MAX] {
        t.prepare("SMB-03", format!("absolute {number:#x}"), value(number), move |d| {
            use_new(d, Symbol::new(b"it", Ref::Number(0xfff1), number));
        });
    }
}

/// Copies the symbol names to the file's end, more bytes after them of which the table has so many, and lets the last
/// symbol's name begin there.
pub(super) fn more_names(draft: &mut Draft, more: &'static [u8], counted: usize) {
    draft.then(move |a| {
        let (offset, names) = (a.file.len() as u64, a.contents("strtab").to_vec());
        a.file.extend(&names);
        a.file.extend(more);
        a.set("strtab", OFFSET, offset);
        a.set("strtab", SIZE, (names.len() + counted) as u64);
        let last = a.contents("symtab").len() - 24;
        put(a.contents("symtab"), last, 4, names.len() as u64);
    });
}

fn undefined(t: &mut Table) {
    let fresh = |d: &mut Draft| use_new(d, Symbol::new(b"fresh", Ref::Number(0), 0));
    for at in [u32::MAX, 0x8000_0000, 0x1_0000] {
        t.prepare("SMB-04", format!("name at {at:#x}"), refused(22), move |d| {
            use_new(d, Symbol { name_at: Some(at), ..Symbol::new(b"", Ref::Number(0), 0) });
        });
    }
    t.prepare("SMB-04", "name at the table's end", refused(22), move |d| {
        fresh(d);
        more_names(d, b"", 0);
    });
    t.prepare("SMB-04", "last name with its zero", value(0xffff_82d0_8015_fbb9), move |d| {
        fresh(d);
        more_names(d, b"printk\0", 7);
    });
    t.prepare("SMB-04", "last name, its zero just past the table", refused(22), move |d| {
        fresh(d);
        more_names(d, b"printk\0", 6);
    });
    t.prepare("SMB-04", "last name, the file ends after it", refused(22), move |d| {
        fresh(d);
        more_names(d, b"printk", 6);
    });
    t.prepare("SMB-04", "a listed name past the table's end", refused(22), move |d| {
        fresh(d);
        more_names(d, b"printk\0", 0);
    });
    t.prepare("SMB-04", "a table with no zero", refused(22), |d| {
        d.section("symtab").link = Ref::To("extra");
        d.symbol("printk").name_at = Some(0);
        use_symbol(d, PRINTK);
    });
}

fn listed(t: &mut Table) {
    t.prepare("SMB-06", "a listed name has the list's address, not its value", value(0xffff_82d0_8015_fbb9), |d| {
        d.symbol("printk").value = 0x1234;
        use_symbol(d, PRINTK);
    });
    for (name, address) in [("at_zero", 0), ("far_away", 0x1000), ("do_domctl", 0xffff_82d0_8010_4a6a)] {
        t.prepare("SMB-06", name, value(address), move |d| {
            use_new(d, Symbol::new(name.as_bytes(), Ref::Number(0), u64::MAX));
        });
    }
}

fn names(t: &mut Table) {
    for name in ["", "print", "printk2", "printk ", "Printk", "rintk", "p", "zzz", "aaa", "xen_extra_versio"] {
        t.prepare("SYM-11", format!("the name `{name}` isn't listed"), refused(3), move |d| {
            use_new(d, Symbol::new(name.as_bytes(), Ref::Number(0), 5));
        });
    }
    for len in [126, 127, 128, 255, 256] {
        let expect = if len == 127 { value(0x55) } else { refused(3) };
        t.prepare("SYM-11", format!("a name of {len} bytes, one of 127 listed"), expect, move |d| {
            d.list.push((vec![b'z'; 127], 0x55));
            use_new(d, Symbol::new(&vec![b'z'; len], Ref::Number(0), 5));
        });
    }
    t.prepare("SYM-12", "another list, another address", value(0x77), |d| {
        d.list.iter_mut().filter(|entry| entry.0 == b"printk").for_each(|entry| entry.1 = 0x77);
        use_symbol(d, PRINTK);
    });
    t.prepare("SMB-05", "an empty list", refused(3), |d| {
        d.list.clear();
        use_symbol(d, PRINTK);
    });
}

fn indices(t: &mut Table) {
    for index in [0xff00, 0xff01, 0xff1f, 0xff20, 0xff3f, 0xfff0, 0xfff2, 0xfffe, 0xffff] {
        t.prepare("SMB-07", format!("index {index:#x}"), refused(95), move |d| {
            use_new(d, Symbol::new(b"printk", Ref::Number(index), 0));
        });
    }
    for index in [64, 255, 256, 0x7fff, 0xfe00, 0xfeff] {
        t.prepare("SMB-08", format!("index {index:#x}"), refused(22), move |d| {
            use_new(d, Symbol::new(b"printk", Ref::Number(index), 0));
        });
    }
    t.prepare("SMB-08", "index e_shnum", refused(22), |d| {
        let count = d.sections.len() as u32;
        use_new(d, Symbol::new(b"printk", Ref::Number(count), 0));
    });
    t.prepare("SMB-08", "index of the text section with a high byte", refused(22), |d| {
        let index = d.index("text") as u32 + 256;
        use_new(d, Symbol::new(b"printk", Ref::Number(index), 0));
    });
    for role in ["symtab", "strtab", "shstrtab", "rela_text", "rela_debug", "comment", "stack", "debug", "gap", "extra"]
    {
        t.prepare("SMB-09", format!("in {role}"), refused(22), move |d| {
            use_new(d, Symbol::new(b"printk", Ref::To(role), 0))
        });
    }
    for role in ["depends", "build_id"] {
        t.prepare("SMB-09", format!("in {role}, not placed"), refused(22), move |d| {
            d.section(role).flags = 0;
            use_new(d, Symbol::new(b"it", Ref::To(role), 0));
        });
        t.prepare("SMB-10", format!("in {role}, placed"), Accepted, move |d| {
            d.section(role).flags = 2;
            use_new(d, Symbol::new(b"it", Ref::To(role), 0));
        });
    }
}

fn values(t: &mut Table) {
    for (role, size) in [("text", 64), ("data", 24), ("seven", 12), ("bss", 40), ("funcs", 192), ("strings", 25)] {
        for (number, expect) in [(0, Accepted), (size - 1, Accepted), (size, Accepted), (size + 1, refused(22))] {
            t.prepare("SMB-10", format!("{role}: value {number} of {size}"), expect, move |d| {
                use_new(d, Symbol::new(b"it", Ref::To(role), number));
            });
        }
        for number in [0x1_0000_0000, 1 << 63, u64::MAX] {
            t.prepare("SMB-10", format!("{role}: value {number:#x}"), refused(22), move |d| {
                use_new(d, Symbol::new(b"it", Ref::To(role), number));
            });
        }
    }
    for (number, expect) in [(0, Accepted), (1, refused(22))] {
        t.prepare("PLC-07", format!("value {number} in an empty section"), expect, move |d| {
            d.add_bytes("empty", ".data", 1, &[]);
            use_new(d, Symbol::new(b"it", Ref::To("empty"), number));
        });
    }
    let facts = vec![Image(64, vec![0; 8]), Image(72, 0xffff_ffff_ffff_fff0u64.to_le_bytes().to_vec())];
    t.prepare("SMB-10", "the end of a section that ends at 2^64 is 0", Holds(facts), |d| {
        d.slim();
        d.slot_base = 0u64.wrapping_sub(8192);
        d.add_bytes("data", ".data", 1, &[9; 8128]);
        let symbol = d.add_symbol(Symbol::new(b"end", Ref::To("data"), 8128));
        let store = |offset, addend| Relocation { offset, kind: 1, symbol, addend };
        d.add(Section::relocations("rela", b"", Ref::To("data"), vec![store(0, 0), store(8, -16i64 as u64)]));
    });
}

fn free(t: &mut Table) {
    for (what, info, other, size) in [
        ("info 0xff", 0xff, 0, 0),
        ("other 0xff", 0, 0xff, 0),
        ("wild size", 0x12, 0, u64::MAX),
        ("file symbol", 4, 0, 0),
    ] {
        t.prepare("SMB-11", format!("absolute symbol, {what}"), value(9), move |d| {
            use_new(d, Symbol { info, other, size, ..Symbol::new(b"it", Ref::Number(0xfff1), 9) });
        });
        t.prepare("SMB-11", format!("undefined symbol, {what}"), value(0x1000), move |d| {
            use_new(d, Symbol { info, other, size, ..Symbol::new(b"far_away", Ref::Number(0), 9) });
        });
    }
    t.prepare("SMB-12", "a broken symbol that relocations of debug use", Accepted, |d| {
        *d.relocations("rela_debug") = vec![Relocation { offset: 0, kind: 1, symbol: 6, addend: 0 }];
    });
    t.prepare("SMB-12", "a broken symbol that a type 0 relocation uses", Accepted, |d| {
        d.set_relocations(&[Relocation { offset: 0, kind: 0, symbol: 6, addend: 0 }]);
    });
    t.prepare("SMB-12", "a broken symbol that is used", refused(95), |d| use_symbol(d, 6));
}
