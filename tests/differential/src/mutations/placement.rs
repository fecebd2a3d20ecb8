//! PLC: placement in the slot.

use super::{at, Expect::Holds, Fact::*, Table};
use crate::payloads::{Record, Ref, Relocation, Section, Symbol};

pub fn rows(table: &mut Table) {
    offsets(table);
    limits(table);
    first_that_passes(table);
    zeros(table);
    ends(table);
    addresses(table);
    notes(table);
    order(table);
}

fn offsets(t: &mut Table) {
    for (align, start) in [(0, 69), (1, 69), (2, 70), (4, 72), (8, 72), (16, 80), (64, 128), (1024, 1024), (4096, 4096)]
    {
        let facts = vec![Image(start, vec![0xaa; 3]), Placed(start as u32 + 3), ZeroFrom(start + 3)];
        t.prepare("PLC-01", format!("alignment {align} after 69 bytes"), Holds(facts), move |d| {
            d.slim();
            d.add_bytes("first", ".data", 1, &[0xbb; 5]);
            d.add_bytes("second", ".text", align, &[0xaa; 3]);
        });
    }
    for align in [0, 1, 16, 4096] {
        let facts = vec![Image(0, vec![0xaa; 3]), Placed(67)];
        t.prepare("PLC-01", format!("first section, alignment {align}"), Holds(facts), move |d| {
            d.slim();
            d.add_bytes("first", ".data", align, &[0xaa; 3]);
            d.put_first("first");
        });
    }
    let facts = vec![Image(64, vec![1, 2, 3]), Placed(67)];
    t.prepare("PLC-01", "index order, not the order of the file", Holds(facts), |d| {
        d.slim();
        for (role, byte) in [("a", 1), ("b", 2), ("c", 3)] {
            d.add_bytes(role, ".data", 1, &[byte]);
        }
        d.layout = 7;
    });
}

fn limits(t: &mut Table) {
    for (size, expect) in [
        (8127, Holds(vec![Placed(8191)])),
        (8128, Holds(vec![Placed(8192)])),
        (8129, at(12, "big")),
        (8192, at(12, "big")),
        (1 << 32, at(12, "big")),
        ((1 << 32) + 8, at(12, "big")),
        (1 << 63, at(12, "big")),
        (u64::MAX, at(12, "big")),
        (u64::MAX - 63, at(12, "big")),
        (u64::MAX - 62, at(12, "big")),
    ] {
        t.prepare("PLC-02", format!("64 bytes and type 8 of {size:#x}"), expect, move |d| {
            d.slim();
            d.add_zeros("big", 1, size);
        });
    }
    for (size, expect) in
        [(8128, Holds(vec![Placed(8192), Image(8191, vec![0x55])])), (8129, at(12, "big")), (10_000, at(12, "big"))]
    {
        t.prepare("PLC-02", format!("64 bytes and type 1 of {size}"), expect, move |d| {
            d.slim();
            d.add_bytes("big", ".rodata", 1, &vec![0x55; size]);
        });
    }
    for (size, expect) in [(0, Holds(vec![Placed(8192)])), (1, at(12, "next"))] {
        t.prepare("PLC-02", format!("{size} bytes aligned to 4,096 after 4,097"), expect, move |d| {
            d.slim();
            d.add_zeros("big", 1, 4097 - 64);
            d.add_bytes("next", ".data", 4096, &vec![1; size]);
        });
    }
}

fn first_that_passes(t: &mut Table) {
    t.prepare("PLC-02", "one byte after 8,192", at(12, "next"), |d| {
        d.slim();
        d.add_zeros("big", 1, 8128);
        d.add_bytes("empty", ".data", 4096, &[]);
        d.add_bytes("next", ".data", 1, &[1]);
        d.add_zeros("later", 1, u64::MAX);
    });
    t.prepare("PLC-02", "the records' section passes", at(12, "funcs"), |d| {
        d.slim();
        d.add_zeros("big", 1, 8192 - 63);
        d.put_first("big");
    });
    t.prepare("PLC-02", "a placed note passes", at(12, "depends"), |d| {
        d.slim();
        d.section("depends").flags = 2;
        d.put_first("funcs");
        d.add_zeros("big", 1, 8192 - 64 - 35);
        d.put_first("big");
    });
    t.prepare("PLC-02", "a note that isn't placed takes no room", Holds(vec![Placed(8192)]), |d| {
        d.slim();
        d.add_zeros("big", 1, 8192 - 64);
        d.put_first("big");
    });
}

fn zeros(t: &mut Table) {
    let facts = vec![Image(64, [vec![1], vec![0; 31], vec![0; 100], vec![2]].concat()), ZeroFrom(197)];
    t.prepare("PLC-03", "type 8 and gaps are zero", Holds(facts), |d| {
        d.slim();
        d.add_bytes("first", ".data", 1, &[1]);
        d.add_zeros("middle", 32, 100);
        d.add_bytes("last", ".data", 4, &[2]);
    });
    let facts = vec![Image(64, vec![0; 40]), Placed(104), ZeroFrom(104)];
    t.prepare("PLC-03", "type 8 with bytes of the file behind its offset", Holds(facts), |d| {
        d.slim();
        d.add_bytes("eight", ".data", 1, &[0xff; 40]);
        d.section("eight").kind = 8;
    });
    let facts = vec![
        InSection("text", 40, vec![0xcc; 20]),
        InSection("data", 0, vec![0x11; 24]),
        InSection("seven", 0, vec![0x77; 12]),
    ];
    t.prepare("PLC-03", "contents come from the file", Holds(facts), |_| ());
}

fn ends(t: &mut Table) {
    t.prepare("PLC-04", "an empty last section after a gap", Holds(vec![Placed(80), ZeroFrom(65)]), |d| {
        d.slim();
        d.add_bytes("text", ".text", 1, &[0xcc]);
        d.add_bytes("data", ".data", 16, &[]);
    });
    t.prepare(
        "PLC-04",
        "an empty last section of type 8, aligned to 4,096",
        Holds(vec![Placed(4096), ZeroFrom(64)]),
        |d| {
            d.slim();
            d.add_zeros("last", 4096, 0);
        },
    );
    t.prepare("PLC-04", "an empty section before the last", Holds(vec![Placed(4097), Image(4096, vec![9])]), |d| {
        d.slim();
        d.add_zeros("empty", 4096, 0);
        d.add_bytes("last", ".data", 1, &[9]);
    });
    t.prepare("PLC-05", "the slot after the placed bytes is zero", Holds(vec![Placed(67), ZeroFrom(67)]), |d| {
        d.slim();
        d.add_bytes("last", ".data", 1, &[9; 3]);
    });
}

/// The address of an empty section at the slot's end, stored by a relocation, in a slot that ends at 2^64.
fn addresses(t: &mut Table) {
    let facts = vec![Image(64, vec![0; 8]), Placed(8192)];
    t.prepare("PLC-06", "an empty section at 2^64 has address 0", Holds(facts), |d| {
        d.slim();
        d.slot_base = 0u64.wrapping_sub(8192);
        d.add_bytes("field", ".data", 1, &[0xff; 8]);
        d.add_zeros("big", 1, 8120);
        d.add_bytes("empty", ".text", 16, &[]);
        let symbol = d.add_symbol(Symbol::new(b"end", Ref::To("empty"), 0));
        d.add(Section::relocations(
            "rela",
            b"",
            Ref::To("field"),
            vec![Relocation { kind: 1, symbol, ..Relocation::default() }],
        ));
    });
    let facts = vec![Image(64, 0x1_0000_1048u64.to_le_bytes().to_vec()), Placed(0x48)];
    t.prepare("PLC-07", "an empty section has an address", Holds(facts), |d| {
        d.slim();
        d.slot_base = 0x1_0000_1000;
        d.add_bytes("field", ".data", 1, &[0xff; 8]);
        d.add_bytes("empty", ".text", 1, &[]);
        let symbol = d.add_symbol(Symbol::new(b"end", Ref::To("empty"), 0));
        d.add(Section::relocations(
            "rela",
            b"",
            Ref::To("field"),
            vec![Relocation { kind: 1, symbol, ..Relocation::default() }],
        ));
    });
}

fn notes(t: &mut Table) {
    for (depends, build_id, placed) in [(0, 0, 64), (2, 0, 64 + 36), (0, 2, 64 + 28), (2, 2, 64 + 64)] {
        t.prepare(
            "PLC-08",
            format!("notes with flags {depends} and {build_id}"),
            Holds(vec![Placed(placed)]),
            move |d| {
                d.slim();
                d.section("depends").flags = depends;
                d.section("build_id").flags = build_id;
            },
        );
    }
    let facts = vec![
        InSection("depends", 16, vec![0xd0; 20]),
        InSection("depends", 0, vec![4, 0, 0, 0, 20, 0, 0, 0, 3, 0, 0, 0]),
    ];
    t.prepare("PLC-08", "a placed note's bytes stand in the slot", Holds(facts), |d| d.section("depends").flags = 2);
}

fn order(t: &mut Table) {
    t.prepare("PLC-09", "too many bytes before an unknown relocation", at(12, "big"), |d| {
        d.set_relocations(&[Relocation { kind: 3, ..Relocation::default() }]);
        d.add_zeros("big", 1, 8192);
    });
    t.prepare("PLC-09", "too many bytes before a wrong record", at(12, "big"), |d| {
        d.set_records(&[Record::new(0, 0, 0, 0)]);
        d.add_zeros("big", 1, 8192);
    });
    t.file("PLC-09", "a broken note before too many bytes", at(22, "build_id"), |d| {
        d.bytes("build_id")[0] = 5;
        d.add_zeros("big", 1, 8192);
        d.put_first("big");
    });
}
