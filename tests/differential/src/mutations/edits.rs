//! EDT: edits; PAIR: edits that touch a common byte.

use super::{record, Expect::Accepted, Expect::Holds, Fact::*, Table};
use crate::payloads::template::TEXT_BASE;
use crate::payloads::Record;

pub fn rows(table: &mut Table) {
    jumps(table);
    ranges(table);
    fills(table);
    pairs(table);
    jump_pairs(table);
    pair_order(table);
}

fn jumps(t: &mut Table) {
    let facts = vec![Edits(1), Edit(0, u64::MAX - 4, vec![0xe9, 0, 0x10, 0, 0])];
    t.prepare("EDT-01", "a jump from 2^64 - 5 to a low slot", Holds(facts), |d| {
        d.slim();
        d.slot_base = 4096;
        d.text_base = 0u64.wrapping_sub(0x1000);
        d.text_len = 0x1000;
        d.set_records(&[Record::new(4096, u64::MAX - 4, 1, 5)]);
    });
    let facts = vec![Edits(1), Edit(0, 1, vec![0xe9, 0xfa, 0xdf, 0xff, 0xff])];
    t.prepare("EDT-01", "a jump from address 1 to a slot that ends at 2^64", Holds(facts), |d| {
        d.slim();
        d.slot_base = 0u64.wrapping_sub(8192);
        d.text_base = 0;
        d.set_records(&[Record::new(d.slot_base, 1, 1, 5)]);
    });
    let facts = vec![Edits(1), Edit(0, TEXT_BASE, vec![0xe9, 0xfb, 0xff, 0x0f, 0])];
    t.prepare("EDT-01", "a jump over all of text", Holds(facts), |d| {
        d.slim();
        d.slot_base = TEXT_BASE + 0x10_0000;
        d.set_records(&[Record::new(d.slot_base, TEXT_BASE, 64, 0x10_0000)]);
    });
}

fn ranges(t: &mut Table) {
    // the jump goes from the text's first pages to the slot's first byte
    let reached = [
        (0x7fff_ffffi64, Some([0xff, 0xff, 0xff, 0x7f])),
        (0x8000_0000, None),
        (-0x8000_0000, Some([0, 0, 0, 0x80])),
        (-0x8000_0001, None),
        (0x1_0000_0000, None),
        (-0x1_0000_0000, None),
        (0x4000_0000_0000_0000, None),
    ];
    for (distance, bytes) in reached {
        let slot = TEXT_BASE.wrapping_add(8192).wrapping_add(distance as u64) & !4095;
        let old = slot.wrapping_sub(distance as u64) - 5;
        let expect = match bytes {
            Some(bytes) => Holds(vec![Edit(0, old, [&[0xe9], &bytes[..]].concat())]),
            None => record(34, 0),
        };
        t.prepare("EDT-02", format!("displacement {distance:#x}"), expect, move |d| {
            d.slim();
            d.slot_base = slot;
            d.set_records(&[Record::new(slot, old, 1, 5)]);
        });
    }
}

fn fills(t: &mut Table) {
    for size in 1..=31u32 {
        let facts = vec![Edits(1), Edit(0, TEXT_BASE + 9, vec![0x90; size as usize])];
        t.prepare("EDT-03", format!("fill of {size}"), Holds(facts), move |d| {
            d.set_records(&[Record::new(0, TEXT_BASE + 9, size, 31)]);
        });
    }
    for count in [16, 17, 32] {
        // the first record is the last in the text
        let old = move |n: usize| TEXT_BASE + 31 * (count - 1 - n) as u64;
        let facts = (0..count).map(|n| Edit(n, old(n), vec![0x90; 31])).chain([Edits(count)]).collect();
        t.prepare("EDT-04", format!("{count} edits in order"), Holds(facts), move |d| {
            let records: Vec<Record> = (0..count).map(|n| Record::new(0, old(n), 31, 31)).collect();
            d.set_records(&records);
        });
    }
}

/// Fills by offset in text and length.
fn fill_records(parts: &[(u64, u32)]) -> Vec<Record> {
    parts.iter().map(|(offset, size)| Record::new(0, TEXT_BASE + offset, *size, 60)).collect()
}

fn pairs(t: &mut Table) {
    let fine: [(&str, &[(u64, u32)]); 4] = [
        ("side by side", &[(100, 10), (110, 10)]),
        ("side by side, the later below", &[(110, 10), (100, 10)]),
        ("one byte each", &[(100, 1), (101, 1), (99, 1)]),
        ("one apart", &[(100, 10), (111, 3), (96, 3)]),
    ];
    for (what, parts) in fine {
        t.prepare("PAIR-01", what, Accepted, move |d| d.set_records(&fill_records(parts)));
    }
    let touching: [(&str, &[(u64, u32)]); 6] = [
        ("one common byte", &[(100, 10), (109, 10)]),
        ("one common byte, the later below", &[(109, 10), (100, 10)]),
        ("the same address", &[(100, 1), (100, 1)]),
        ("one inside the other", &[(100, 20), (105, 1)]),
        ("one around the other", &[(105, 1), (100, 20)]),
        ("the same bytes", &[(100, 31), (100, 31)]),
    ];
    for (what, parts) in touching {
        t.prepare("PAIR-01", what, record(22, 1), move |d| d.set_records(&fill_records(parts)));
    }
}

fn jump_pairs(t: &mut Table) {
    for (offset, good) in [(104, false), (105, true), (99, false), (96, false), (95, true)] {
        t.prepare(
            "PAIR-01",
            format!("a jump at 100 and one at {offset}"),
            if good { Accepted } else { record(22, 1) },
            move |d| {
                d.slim();
                d.set_records(&[
                    Record::new(d.slot_base, TEXT_BASE + 100, 1, 50),
                    Record::new(d.slot_base, TEXT_BASE + offset, 1, 50),
                ]);
            },
        );
    }
    t.prepare("PAIR-03", "old_size ranges may overlap", Accepted, |d| {
        d.slim();
        d.set_records(&[
            Record::new(d.slot_base, TEXT_BASE + 100, 1, 50),
            Record::new(d.slot_base, TEXT_BASE + 110, 1, 40),
        ]);
    });
    t.prepare("PAIR-03", "sizes of new code don't count", Accepted, |d| {
        d.slim();
        d.set_records(&[
            Record::new(d.slot_base, TEXT_BASE + 100, 64, 50),
            Record::new(d.slot_base, TEXT_BASE + 110, 64, 40),
        ]);
    });
    t.prepare("PAIR-01", "the last bytes before 2^64", Accepted, |d| {
        d.text_base = 0u64.wrapping_sub(d.text_len);
        d.set_records(&[Record::new(0, u64::MAX, 1, 1), Record::new(0, u64::MAX - 1, 1, 1)]);
    });
    t.prepare("PAIR-01", "the last byte before 2^64 twice", record(22, 1), |d| {
        d.text_base = 0u64.wrapping_sub(d.text_len);
        d.set_records(&[Record::new(0, u64::MAX, 1, 1), Record::new(0, u64::MAX - 1, 2, 2)]);
    });
}

fn pair_order(t: &mut Table) {
    t.prepare("PAIR-02", "(0, 3) and (1, 2): the lowest later record", record(22, 2), |d| {
        d.set_records(&fill_records(&[(100, 5), (200, 5), (204, 5), (104, 5)]));
    });
    t.prepare("PAIR-02", "(0, 2) and (1, 3)", record(22, 2), |d| {
        d.set_records(&fill_records(&[(100, 5), (200, 5), (104, 5), (204, 5)]));
    });
    for (first, last) in [(0, 15), (14, 15), (0, 16), (15, 16), (0, 31), (30, 31)] {
        t.prepare("PAIR-02", format!("({first}, {last}) alone"), record(22, last), move |d| {
            let mut parts: Vec<(u64, u32)> = (0..last).map(|n| (100 * n, 31)).collect();
            parts.push((100 * first + 30, 1));
            d.set_records(&fill_records(&parts));
        });
    }
    t.prepare("PAIR-04", "record 5's range before the pair (0, 1)", record(34, 5), |d| {
        d.slim();
        d.slot_base = TEXT_BASE.wrapping_add(1 << 40);
        let mut records = fill_records(&[(100, 5), (100, 5), (200, 5), (300, 5), (400, 5)]);
        records.push(Record::new(d.slot_base, TEXT_BASE + 500, 1, 5));
        d.set_records(&records);
    });
    t.prepare("PAIR-04", "record 2's version before the pair (0, 1)", record(22, 2), |d| {
        let mut records = fill_records(&[(100, 5), (100, 5), (200, 5)]);
        records[2].version = 0;
        d.set_records(&records);
    });
    t.prepare("PAIR-04", "record 2's unlisted name before the pair (0, 1)", record(3, 2), |d| {
        d.add_bytes("name", ".rodata.name", 1, b"zzzz\0");
        let mut records = fill_records(&[(100, 5), (100, 5), (200, 5)]);
        records[2].old_addr = 0;
        d.set_records(&records);
        records[2].name = d.address("name");
        d.set_records(&records);
    });
}
