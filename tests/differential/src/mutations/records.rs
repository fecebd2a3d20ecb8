//! REC: function records.

use super::{entry, record, Expect, Expect::Accepted, Expect::Holds, Fact::*, Table};
use crate::payloads::template::{TEXT_BASE, TEXT_LEN};
use crate::payloads::{Draft, Record, Relocation};

const TEXT_END: u64 = TEXT_BASE + TEXT_LEN;

/// A good fill.
fn fill() -> Record {
    Record::new(0, TEXT_BASE + 0x100, 3, 9)
}

/// Gives the payload one jump, to an address of its slot.
fn jump(draft: &mut Draft, new_size: u32, old_size: u32, to: impl Fn(&Draft) -> u64) {
    draft.reserve_records(1);
    let new_addr = to(draft);
    draft.set_records(&[Record { new_addr, new_size, old_size, ..fill() }]);
}

/// Accepted, or refused with 22 at record 0.
fn accepted(good: bool) -> Expect {
    match good {
        true => Accepted,
        false => record(22, 0),
    }
}

pub fn rows(table: &mut Table) {
    reading(table);
    versions(table);
    jump_sizes(table);
    new_code(table);
    new_code_anywhere(table);
    fill_sizes(table);
    old_code(table);
    old_code_at_ends(table);
    order(table);
    order_of_records(table);
}

fn reading(t: &mut Table) {
    let facts = vec![
        Edits(3),
        Edit(1, TEXT_BASE + 0x1_0000, vec![0x90; 7]),
        InSection("funcs", 64, 0xdead_beef_0000_0000u64.to_le_bytes().to_vec()),
    ];
    t.prepare("REC-01", "the template's three records", Holds(facts), |_| ());
    t.prepare("REC-02", "what the file has in relocated fields doesn't count", Holds(vec![Edits(3)]), |d| {
        for at in [0, 8, 136, 144] {
            d.bytes("funcs")[at..at + 8].fill(0xee);
        }
    });
    t.prepare(
        "REC-02",
        "a relocation makes a jump a fill",
        Holds(vec![Edits(3), Edit(2, TEXT_BASE + 0x2_0000, vec![0x90; 5])]),
        |d| {
            d.bytes("funcs")[128 + 24] = 5;
            d.relocations("rela_funcs").push(Relocation { offset: 136, kind: 1, symbol: 0, addend: 0 });
        },
    );
    for name in [0, 1, 0xdead_beef_dead_beef, u64::MAX] {
        t.prepare("REC-03", format!("name {name:#x} with an old address"), Accepted, move |d| {
            d.set_records(&[Record { name, ..fill() }]);
        });
    }
}

fn versions(t: &mut Table) {
    for version in [0, 2, 3, 0x11, 0x81, 0xff] {
        t.prepare("REC-07", format!("version {version}"), record(22, 0), move |d| {
            d.set_records(&[Record { version, ..fill() }])
        });
    }
    for byte in 0..31usize {
        t.prepare("REC-08", format!("opaque byte {byte}"), record(22, 1), move |d| {
            let mut one = Record { old_addr: TEXT_BASE + 0x900, ..fill() };
            one.opaque[byte] = 1;
            d.set_records(&[fill(), one]);
        });
    }
}

fn jump_sizes(t: &mut Table) {
    let mut sized = |id, new_size: u32, old_size: u32, good| {
        t.prepare(id, format!("jump over {old_size} bytes to {new_size}"), accepted(good), move |d| {
            jump(d, new_size, old_size, |d| d.address("text"));
        });
    };
    sized("REC-09", 0, 9, false);
    sized("REC-09", 1, 9, true);
    for old_size in 0..=4 {
        sized("REC-10", 16, old_size, false);
    }
    for old_size in [5, 6, 0x1000] {
        sized("REC-10", 16, old_size, true);
    }
    sized("REC-10", 16, 0x8000_0005, false);
}

fn new_code(t: &mut Table) {
    type Place = fn(&Draft) -> (u64, u64);
    let places: [(&str, bool, Place); 12] = [
        ("the last placed byte", true, |d| (d.slot_base + d.placement().1 - 1, 1)),
        ("the last 10 placed bytes", true, |d| (d.slot_base + d.placement().1 - 10, 10)),
        ("the last 10 placed bytes and one more", false, |d| (d.slot_base + d.placement().1 - 10, 11)),
        ("the byte after the placed bytes", false, |d| (d.slot_base + d.placement().1, 1)),
        ("all placed bytes", true, |d| (d.slot_base, d.placement().1)),
        ("all placed bytes and one more", false, |d| (d.slot_base, d.placement().1 + 1)),
        ("one byte below the slot", false, |d| (d.slot_base - 1, 2)),
        ("the text", false, |d| (d.text_base + 0x800, 4)),
        ("the next slot", false, |d| (d.slot_base + 8192, 4)),
        ("2^64 - 1", false, |_| (u64::MAX, 1)),
        ("address 1", false, |_| (1, 4)),
        ("2^32 - 1 bytes", false, |d| (d.slot_base, 0xffff_ffff)),
    ];
    for (what, good, place) in places {
        t.prepare("REC-11", format!("new code at {what}"), accepted(good), move |d| {
            d.reserve_records(1);
            let size = place(d).1 as u32;
            jump(d, size, 9, |d| place(d).0);
        });
    }
}

fn new_code_anywhere(t: &mut Table) {
    for role in ["bss", "data", "funcs", "strings", "seven"] {
        t.prepare("REC-12", format!("new code in {role}"), Accepted, move |d| jump(d, 4, 9, |d| d.address(role)));
    }
    t.prepare("REC-12", "new code in a gap", Accepted, |d| {
        d.add_bytes("first", ".data.x", 1, &[1]);
        d.add_zeros("second", 4096, 1);
        jump(d, 30, 9, |d| d.address("first") + 20);
    });
    for (new_size, good) in [(1, true), (2, false), (u32::MAX, false)] {
        t.prepare("REC-11", format!("{new_size} bytes at the end of a slot up to 2^64"), accepted(good), move |d| {
            d.slim();
            d.slot_base = 0u64.wrapping_sub(8192);
            d.text_base = 0u64.wrapping_sub(8192 + (1 << 20));
            d.add_zeros("big", 1, 8128);
            d.set_records(&[Record::new(u64::MAX, d.text_base, new_size, 5)]);
        });
    }
}

fn fill_sizes(t: &mut Table) {
    let mut sized = |id, new_size: u32, old_size: u32, good: bool| {
        let expect = match good {
            true => Holds(vec![Edits(1), Edit(0, TEXT_BASE + 0x100, vec![0x90; new_size as usize])]),
            false => record(22, 0),
        };
        t.prepare(id, format!("fill of {new_size} over {old_size}"), expect, move |d| {
            d.set_records(&[Record { new_size, old_size, ..fill() }]);
        });
    };
    for new_size in [1, 2, 30, 31] {
        sized("REC-13", new_size, 40, true);
        sized("REC-14", new_size, new_size, true);
        sized("REC-14", new_size, new_size - 1, false);
    }
    for new_size in [0, 32, 33, 40, 256 + 5, 0x8000_0001, u32::MAX] {
        sized("REC-13", new_size, 0x1000, false);
    }
    sized("REC-13", 0, 0, false);
}

fn old_code(t: &mut Table) {
    let places = [
        ("text's first byte", TEXT_BASE, 5, true),
        ("one byte below text", TEXT_BASE - 1, 5, false),
        ("all of text", TEXT_BASE, TEXT_LEN as u32, true),
        ("all of text and one byte", TEXT_BASE, TEXT_LEN as u32 + 1, false),
        ("text's last 5 bytes", TEXT_END - 5, 5, true),
        ("text's last 5 bytes and one more", TEXT_END - 5, 6, false),
        ("text's last byte", TEXT_END - 1, 5, false),
        ("text's end", TEXT_END, 5, false),
        ("2^64 - 5", u64::MAX - 4, 5, false),
        ("2^64 - 1", u64::MAX, 5, false),
        ("address 1", 1, 5, false),
        ("2^32 - 1 bytes", TEXT_BASE, u32::MAX, false),
    ];
    for (what, old_addr, old_size, good) in places {
        t.prepare("REC-15", format!("old code: {what}"), accepted(good), move |d| {
            d.set_records(&[Record { old_addr, old_size, new_size: 1, ..fill() }]);
        });
    }
}

fn old_code_at_ends(t: &mut Table) {
    for (what, back, old_size, good) in
        [("ends at 2^64", 5, 5, true), ("one byte past 2^64", 5, 6, false), ("wraps to text", 1, u32::MAX, false)]
    {
        t.prepare("REC-15", format!("old code in text up to 2^64: {what}"), accepted(good), move |d| {
            d.text_base = 0u64.wrapping_sub(TEXT_LEN);
            d.set_records(&[Record { old_addr: 0u64.wrapping_sub(back), old_size, new_size: 1, ..fill() }]);
        });
    }
    t.prepare("REC-15", "text of one byte", Accepted, |d| {
        d.text_len = 1;
        d.set_records(&[Record { old_addr: TEXT_BASE, old_size: 1, new_size: 1, ..fill() }]);
    });
    t.prepare("REC-15", "two bytes of a text of one", record(22, 0), |d| {
        d.text_len = 1;
        d.set_records(&[Record { old_addr: TEXT_BASE, old_size: 2, new_size: 1, ..fill() }]);
    });
}

/// A jump that is out of range, in a slot far from the text.
fn far(draft: &mut Draft) -> Record {
    draft.slim();
    draft.slot_base = TEXT_BASE.wrapping_add(1 << 40);
    Record::new(draft.slot_base, TEXT_BASE + 0x200, 1, 9)
}

fn order(t: &mut Table) {
    t.prepare("REC-16", "out of range", record(34, 0), |d| {
        let far = far(d);
        d.set_records(&[far]);
    });
    type Worse = fn(&mut Record);
    let worse: [(&str, Worse); 6] = [
        ("version", |r| r.version = 2),
        ("opaque", |r| r.opaque[30] = 1),
        ("old_size", |r| r.old_size = 4),
        ("new_size", |r| r.new_size = 0),
        ("old code", |r| r.old_addr = TEXT_BASE - 1),
        ("new code", |r| r.new_addr -= 1),
    ];
    for (what, change) in worse {
        t.prepare("REC-16", format!("wrong {what} before the range"), record(22, 0), move |d| {
            let mut far = far(d);
            change(&mut far);
            d.set_records(&[far]);
        });
    }
}

fn order_of_records(t: &mut Table) {
    t.prepare("REC-16", "record 0's range before record 1's version", record(34, 0), |d| {
        let far = far(d);
        d.set_records(&[far, Record { version: 2, ..fill() }]);
    });
    t.prepare("REC-16", "record 0's version before record 1's range", record(22, 0), |d| {
        let far = far(d);
        d.set_records(&[Record { version: 2, ..fill() }, far]);
    });
    t.prepare("REC-16", "record 1's version before record 2's name", record(22, 1), |d| {
        d.set_records(&[fill(), Record { version: 2, ..fill() }, Record::new(0, 0, 1, 1)]);
    });
    for last in [15, 16, 31] {
        t.prepare("REC-16", format!("record {last}"), record(22, last), move |d| {
            d.reserve_records(last + 1);
            d.bytes("funcs")[last as usize * 64 + 32] = 9;
        });
    }
    t.prepare("REC-16", "relocations before records", entry(95, "rela_text", 0), |d| {
        d.set_relocations(&[Relocation { kind: 3, ..Default::default() }]);
        d.set_records(&[Record { version: 2, ..fill() }]);
    });
}
