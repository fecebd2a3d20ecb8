//! REL: relocations.

use super::{entry, Expect, Expect::Accepted, Expect::Holds, Fact::*, Table};
use crate::payloads::template::{ABSOLUTE, HERE_TEXT, PRINTK};
use crate::payloads::{Draft, Record, Ref, Relocation, Section, Symbol};

fn relocation(offset: u64, kind: u32, symbol: u32, addend: u64) -> Relocation {
    Relocation { offset, kind, symbol, addend }
}

/// The addend with which a field of the text section gets a displacement to a symbol of this value.
fn reach(draft: &Draft, offset: u64, value: u64, displacement: i64) -> u64 {
    (displacement as u64).wrapping_add(draft.address("text")).wrapping_add(offset).wrapping_sub(value)
}

/// Refused with a number at the text section's relocation 0.
fn first(number: u64) -> Expect {
    entry(number, "rela_text", 0)
}

pub fn rows(table: &mut Table) {
    types(table);
    fields(table);
    wide_values(table);
    ranges(table);
    around_the_top(table);
    stored(table);
    order_in_entry(table);
    order_of_entries(table);
    targets(table);
}

fn types(t: &mut Table) {
    let unknown = [
        3, 5, 6, 7, 8, 9, 10, 11, 12, 13, 14, 15, 16, 17, 18, 24, 25, 26, 27, 32, 37, 41, 42, 0x100, 0x101, 0x104,
        0x1_0001, 0x0100_0002, 0x8000_0001, 0xffff_ffff,
    ];
    for kind in unknown {
        t.prepare("REL-01", format!("type {kind:#x}"), first(95), move |d| {
            d.set_relocations(&[relocation(0, kind, 0, 0)])
        });
    }
    t.prepare("REL-01", "info 0x100000001 is type 1 of symbol 1", Accepted, |d| {
        d.set_relocations(&[relocation(0, 1, 1, 0)])
    });
    for (what, offset, symbol) in [("wild field", u64::MAX, 0), ("wild symbol", 0, u32::MAX), ("broken symbol", 0, 6)] {
        let facts = vec![InSection("text", 0, vec![0xcc; 64])];
        t.prepare("REL-02", format!("type 0 with a {what}"), Holds(facts), move |d| {
            d.set_relocations(&[relocation(offset, 0, symbol, u64::MAX)]);
        });
    }
}

fn fields(t: &mut Table) {
    // the text section has 64 bytes
    for (kind, last) in [(1, 56), (2, 60), (4, 60)] {
        t.prepare("REL-03", format!("type {kind} at the section's end"), Accepted, move |d| {
            let addend = reach(d, last, 0, 9);
            d.set_relocations(&[relocation(last, kind, 0, addend)]);
        });
        let wild = [last + 1, last + 2, 63, 64, 65, 100, 0x1_0000_0000, 1 << 63, u64::MAX - 7, u64::MAX - 3, u64::MAX];
        for offset in wild {
            t.prepare("REL-03", format!("type {kind} at {offset:#x}"), first(22), move |d| {
                let addend = reach(d, offset, 0, 9);
                d.set_relocations(&[relocation(offset, kind, 0, addend)]);
            });
        }
        t.prepare("REL-03", format!("type {kind} in an empty section"), entry(22, "more", 0), move |d| {
            d.add_bytes("empty", ".data", 1, &[]);
            d.add(Section::relocations("more", b"", Ref::To("empty"), vec![relocation(0, kind, 0, 0)]));
        });
    }
}

fn wide_values(t: &mut Table) {
    let sums: [(u64, u64, u64); 5] = [
        (0, 0, 0),
        (5, u64::MAX, 4),
        (u64::MAX, u64::MAX, u64::MAX - 1),
        (0x0123_4567_89ab_cdef, 1, 0x0123_4567_89ab_cdf0),
        (1 << 63, 1 << 63, 0),
    ];
    for (value, addend, sum) in sums {
        let facts = vec![InSection("text", 3, sum.to_le_bytes().to_vec())];
        t.prepare("REL-04", format!("type 1 of {value:#x} + {addend:#x}"), Holds(facts), move |d| {
            d.symbol("absolute").value = value;
            d.set_relocations(&[relocation(3, 1, ABSOLUTE, addend)]);
            d.set_records(&[Record::new(0, d.text_base, 1, 1)]);
        });
    }
}

fn ranges(t: &mut Table) {
    for kind in [2, 4] {
        for (id, displacement) in [
            ("REL-05", 0x1234_5678),
            ("REL-05", -0x1234_5678),
            ("REL-05", 0),
            ("REL-06", 1),
            ("REL-06", -1),
            ("REL-06", 0x7fff_ffff),
            ("REL-06", -0x8000_0000),
        ] {
            let facts = vec![
                InSection("text", 5, (displacement as i32).to_le_bytes().to_vec()),
                InSection("text", 9, vec![0xcc]),
            ];
            t.prepare(id, format!("type {kind}: displacement {displacement} stands"), Holds(facts), move |d| {
                let addend = reach(d, 5, d.text_base + 0x2_0000, displacement);
                d.set_relocations(&[relocation(5, kind, ABSOLUTE, addend)]);
            });
        }
        for displacement in [0x8000_0000, -0x8000_0001, 0xffff_ffff, 1 << 32, -1 << 32, i64::MAX, i64::MIN] {
            t.prepare("REL-06", format!("type {kind}: displacement {displacement:#x}"), first(34), move |d| {
                let addend = reach(d, 5, d.text_base + 0x2_0000, displacement);
                d.set_relocations(&[relocation(5, kind, ABSOLUTE, addend)]);
            });
        }
    }
    t.prepare("REL-06", "type 2 of symbol 0 is far from address 0", first(34), |d| {
        d.set_relocations(&[relocation(5, 2, 0, 0)])
    });
}

fn around_the_top(t: &mut Table) {
    let facts = vec![Image(8182, vec![15, 0, 0, 0]), Image(8178, vec![9; 4]), Image(8186, vec![9; 6])];
    t.prepare("REL-07", "S 5 and P 2^64 - 10 make 15", Holds(facts), |d| {
        d.slim();
        d.slot_base = 0u64.wrapping_sub(8192);
        d.add_bytes("data", ".data", 1, &[9; 8128]);
        let symbol = d.add_symbol(Symbol::new(b"five", Ref::Number(0xfff1), 5));
        d.add(Section::relocations("rela", b"", Ref::To("data"), vec![relocation(8182 - 64, 2, symbol, 0)]));
    });
    let facts = vec![Image(64, vec![0xfb, 0xff, 0xff, 0xff])];
    t.prepare("REL-07", "S 2^64 - 1 and a low P", Holds(facts), |d| {
        d.slim();
        d.slot_base = 4096;
        d.add_bytes("data", ".data", 1, &[9; 8]);
        let symbol = d.add_symbol(Symbol::new(b"top", Ref::Number(0xfff1), u64::MAX));
        d.add(Section::relocations("rela", b"", Ref::To("data"), vec![relocation(0, 4, symbol, 4096 + 64 - 4)]));
    });
}

fn stored(t: &mut Table) {
    let facts = vec![InSection("text", 8, vec![0xfc, 0xff, 0xff, 0xff, 0xfc, 0xff, 0xff, 0xff])];
    t.prepare("REL-08", "two fields with displacements to themselves", Holds(facts), |d| {
        d.symbol("here_text").value = 8;
        let near = |offset, addend: i64| relocation(offset, 2, HERE_TEXT, addend as u64);
        d.set_relocations(&[near(8, -4), near(12, 0)]);
        d.set_records(&[Record::new(0, d.text_base, 1, 1)]);
    });
    let facts = vec![InSection("text", 8, vec![0x34, 0x12, 0, 0, 0, 0, 0, 0]), InSection("text", 0, vec![0xff; 8])];
    t.prepare("REL-09", "what stood in the field isn't added", Holds(facts), |d| {
        *d.bytes("text") = vec![0xff; 64];
        d.set_relocations(&[relocation(8, 1, 0, 0x1234)]);
    });
    let facts = vec![InSection("text", 8, vec![1, 2, 2, 2, 2, 2, 2, 2, 2, 0xcc])];
    t.prepare("REL-10", "a later field over an earlier one", Holds(facts), |d| {
        d.set_relocations(&[relocation(8, 1, 0, 0x0101_0101_0101_0101), relocation(9, 1, 0, 0x0202_0202_0202_0202)]);
    });
    let facts = vec![InSection("text", 8, vec![1, 1, 1, 1, 1, 1, 1, 1, 2, 0xcc])];
    t.prepare("REL-10", "the same in the other order", Holds(facts), |d| {
        d.set_relocations(&[relocation(9, 1, 0, 0x0202_0202_0202_0202), relocation(8, 1, 0, 0x0101_0101_0101_0101)]);
    });
    for (lower, byte) in [("rela_text", 2), ("again", 1)] {
        let facts = vec![InSection("text", 8, vec![byte; 8])];
        t.prepare("REL-10", format!("two sections write one field, {lower} first"), Holds(facts), move |d| {
            d.set_relocations(&[relocation(8, 1, 0, 0x0101_0101_0101_0101)]);
            let again = vec![relocation(8, 1, 0, 0x0202_0202_0202_0202)];
            d.add(Section::relocations("again", b"", Ref::To("text"), again));
            d.put_first(lower);
        });
    }
}

fn order_in_entry(t: &mut Table) {
    let wild = u64::MAX;
    let missing = PRINTK; // its name is changed below to one that isn't listed
    let broken = 6; // its index is 0xff05
    let rows: [(&str, u64, Relocation); 9] = [
        ("unknown type before a wrong field", 95, relocation(wild, 3, 1, 0)),
        ("unknown type before a missing symbol", 95, relocation(0, 3, missing, 0)),
        ("wrong field before a missing symbol", 22, relocation(wild, 2, missing, 0)),
        ("wrong field before a broken symbol", 22, relocation(wild, 1, broken, 0)),
        ("wrong field before the range", 22, relocation(61, 2, 0, 0)),
        ("missing symbol before the range", 3, relocation(0, 2, missing, 1 << 40)),
        ("broken symbol before the range", 95, relocation(0, 4, broken, 1 << 40)),
        ("symbol past the table before the range", 22, relocation(0, 4, 99, 1 << 40)),
        ("the range alone", 34, relocation(0, 4, ABSOLUTE, 1 << 40)),
    ];
    for (what, number, bad) in rows {
        t.prepare("REL-11", what, first(number), move |d| {
            d.symbol("printk").name = b"not_listed".to_vec();
            d.set_relocations(&[bad]);
        });
    }
}

fn order_of_entries(t: &mut Table) {
    let range = relocation(0, 2, ABSOLUTE, 1 << 40);
    let unknown = relocation(0, 3, 0, 0);
    let fine = relocation(0, 1, 0, 0);
    t.prepare("REL-12", "the first broken entry", entry(34, "rela_text", 2), move |d| {
        d.set_relocations(&[fine, fine, range, unknown]);
    });
    t.prepare("REL-12", "the last entry", entry(95, "rela_text", 3), move |d| {
        d.set_relocations(&[fine, fine, fine, unknown])
    });
    t.prepare("REL-12", "entry 200", entry(95, "rela_text", 200), move |d| {
        let mut entries = vec![fine; 200];
        entries.extend([unknown, range]);
        d.set_relocations(&entries);
    });
    for (lower, upper, number) in [("rela_text", "rela_funcs", 34), ("rela_funcs", "rela_text", 95)] {
        let place = if lower == "rela_text" { 1 } else { 4 };
        t.prepare("REL-12", format!("{lower} before {upper}"), entry(number, lower, place), move |d| {
            d.put_before(lower, upper);
            d.set_relocations(&[fine, range]);
            d.relocations("rela_funcs").push(unknown);
        });
        t.prepare(
            "REL-12",
            format!("{lower} before {upper}, targets the other way"),
            entry(number, lower, place),
            move |d| {
                d.put_before(lower, upper);
                let (text, funcs) = if lower == "rela_text" { ("funcs", "text") } else { ("text", "funcs") };
                d.put_before(text, funcs);
                d.set_relocations(&[fine, range]);
                d.relocations("rela_funcs").push(unknown);
            },
        );
    }
}

fn targets(t: &mut Table) {
    for role in ["seven", "data", "strings"] {
        let facts = vec![InSection(role, 1, vec![0x44; 8])];
        t.prepare("REL-13", format!("a field in {role}"), Holds(facts), move |d| {
            d.relocations("rela_text").clear();
            d.set_records(&[Record::new(0, d.text_base, 1, 1)]);
            d.add(Section::relocations("more", b"", Ref::To(role), vec![relocation(1, 1, 0, 0x4444_4444_4444_4444)]));
        });
    }
    let facts = vec![
        InSection("funcs", 64 + 16, 0xffff_82d0_8018_0000u64.to_le_bytes().to_vec()),
        Edit(1, 0xffff_82d0_8018_0000, vec![0x90; 7]),
    ];
    t.prepare("REL-13", "a field in the records", Holds(facts), |d| {
        d.relocations("rela_funcs").push(relocation(64 + 16, 1, ABSOLUTE, 0x6_0000));
    });
}
