//! REC-04 to REC-06: records that find their function by name.

use super::{record, Expect, Expect::Accepted, Expect::Holds, Fact::*, Table};
use crate::payloads::template::TEXT_BASE;
use crate::payloads::{Draft, Record};

/// Gives the payload one record, a fill of one byte, that finds its function by a name at the end of the placed bytes.
fn named(draft: &mut Draft, name: &[u8]) {
    draft.add_bytes("name", ".rodata.name", 1, name);
    name_at(draft, |draft| draft.address("name"));
}

/// Gives the payload one such record, its name anywhere.
fn name_at(draft: &mut Draft, place: impl Fn(&Draft) -> u64) {
    draft.reserve_records(1);
    let name = place(draft);
    draft.set_records(&[Record { name, ..Record::new(0, 0, 1, 1) }]);
}

/// Accepted, with the one edit at this address.
fn found(address: u64) -> Expect {
    Holds(vec![Edits(1), Edit(0, address, vec![0x90])])
}

pub fn rows(table: &mut Table) {
    lengths(table);
    ends(table);
    addresses(table);
    lookups(table);
}

fn lengths(t: &mut Table) {
    for len in [1usize, 2, 126, 127] {
        t.prepare("REC-04", format!("name of {len} bytes"), found(TEXT_BASE + 77), move |d| {
            named(d, &[vec![b'z'; len], vec![0]].concat());
            d.list.push((vec![b'z'; len], TEXT_BASE + 77));
        });
    }
    for len in [0usize, 128, 129, 255, 256] {
        t.prepare("REC-04", format!("name of {len} bytes"), record(22, 0), move |d| {
            named(d, &[vec![b'z'; len], vec![0]].concat());
        });
    }
}

fn ends(t: &mut Table) {
    let ends: [(&str, &[u8]); 3] = [
        ("a name that ends with the placed bytes", b"printk"),
        ("one byte that ends the placed bytes", b"p"),
        ("a name of 127 bytes without its zero", &[b'z'; 127]),
    ];
    for (what, name) in ends {
        t.prepare("REC-04", what, record(22, 0), move |d| named(d, name));
    }
    t.prepare("REC-04", "a name whose zero is the gap before an empty last section", Accepted, |d| {
        named(d, b"printk");
        d.add_bytes("end", ".data", 4096, &[]);
    });
    t.prepare("REC-04", "a name whose zero is the slot's last byte", found(TEXT_BASE + 77), |d| {
        d.slim();
        d.add_zeros("big", 1, 8128 - 128);
        d.list.push((vec![b'z'; 127], TEXT_BASE + 77));
        named(d, &[vec![b'z'; 127], vec![0]].concat());
    });
    t.prepare("REC-04", "a name up to the slot's last byte", record(22, 0), |d| {
        d.slim();
        d.add_zeros("big", 1, 8128 - 127);
        d.list.push((vec![b'z'; 127], TEXT_BASE + 77));
        named(d, &[b'z'; 127]);
    });
}

fn addresses(t: &mut Table) {
    type Place = fn(&Draft) -> u64;
    let places: [(&str, Place); 8] = [
        ("0", |_| 0),
        ("one byte below the slot", |d| d.slot_base - 1),
        ("the end of the placed bytes", |d| d.slot_base + d.placement().1),
        ("the slot's last byte", |d| d.slot_base + 8191),
        ("the next slot", |d| d.slot_base + 8192),
        ("2^64 - 1", |_| u64::MAX),
        ("the text", |_| TEXT_BASE),
        ("the low half of an address in the slot", |d| d.address("strings") & 0xffff_ffff),
    ];
    for (what, place) in places {
        t.prepare("REC-04", format!("name at {what}"), record(22, 0), move |d| name_at(d, place));
    }
    t.prepare("REC-04", "name at the slot's first byte", found(TEXT_BASE + 5), |d| {
        d.add_bytes("name", ".rodata.name", 1, b"tiny\0");
        d.put_first("name");
        d.list.push((b"tiny".to_vec(), TEXT_BASE + 5));
        d.list.sort();
        name_at(d, |d| d.slot_base);
    });
    t.prepare("REC-04", "name inside the records", Holds(vec![Edit(1, TEXT_BASE + 6, vec![0x90])]), |d| {
        d.list.push((b"zz".to_vec(), TEXT_BASE + 6));
        d.reserve_records(2);
        let letters = Record { name: 0x7a7a, ..Record::new(0, TEXT_BASE + 0x100, 3, 9) };
        d.set_records(&[letters, Record { name: d.address("funcs"), ..Record::new(0, 0, 1, 1) }]);
    });
}

fn lookups(t: &mut Table) {
    for name in [&b"print\0"[..], b"printkx\0", b"zzzz\0", b"a\0", b"\xff\0"] {
        t.prepare("REC-05", format!("unlisted name {}", name.escape_ascii()), record(3, 0), move |d| named(d, name));
    }
    t.prepare("REC-05", "an unlisted name before a wrong version", record(3, 0), |d| {
        named(d, b"zzzz\0");
        d.bytes("funcs")[32] = 2;
    });
    t.prepare("REC-05", "a name's 22 before a wrong version", record(22, 0), |d| {
        named(d, b"\0");
        d.bytes("funcs")[32] = 2;
    });
    t.prepare("REC-06", "a listed address of 0", found(0), |d| {
        d.text_base = 0;
        named(d, b"at_zero\0");
    });
    let facts = vec![Edit(0, 0xffff_82d0_8015_fbb9, vec![0x90]), InSection("funcs", 16, vec![0; 8])];
    t.prepare("REC-06", "the slot keeps old_addr 0", Holds(facts), |d| named(d, b"printk\0"));
    for name in [&b"at_zero\0"[..], b"outside\0", b"far_away\0"] {
        let what = format!("a listed address outside the text: {}", name.escape_ascii());
        t.prepare("O-149", what, record(22, 0), move |d| named(d, name));
    }
}
