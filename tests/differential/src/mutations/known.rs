//! The paper's numbers K1 to K9, through a whole payload.

use super::{at, entry, record, Expect::Accepted, Expect::Holds, Fact::*, Table};
use crate::payloads::template::{note, TEXT_BASE};
use crate::payloads::{Draft, Record, Ref, Relocation, Section, Symbol};

pub fn rows(table: &mut Table) {
    jumps(table);
    displacement(table);
    limits(table);
    offsets(table);
    notes(table);
    sizes(table);
}

const OLD: u64 = 0xffff_82d0_8013_963c;
const NEW: u64 = 0xffff_82d0_801a_0000;

/// One jump, in a slot of zeros from `slot` on and a text of 64 KiB from `text` on.
fn one_jump(draft: &mut Draft, text: u64, slot: u64, from: u64, to: u64) {
    draft.slim();
    draft.text_base = text;
    draft.text_len = 0x1_0000;
    draft.slot_base = slot;
    draft.add_zeros("new", 1, 4096);
    draft.set_records(&[Record::new(to, from, 1, 5)]);
}

fn jumps(t: &mut Table) {
    t.prepare("K1", "jump", Holds(vec![Edits(1), Edit(0, OLD, vec![0xe9, 0xbf, 0x69, 0x06, 0x00])]), |d| {
        one_jump(d, 0xffff_82d0_8013_0000, NEW, OLD, NEW);
    });
    t.prepare("K2", "jump, swapped", Holds(vec![Edits(1), Edit(0, NEW, vec![0xe9, 0x37, 0x96, 0xf9, 0xff])]), |d| {
        one_jump(d, NEW, 0xffff_82d0_8013_9000, NEW, OLD);
    });
}

/// A payload with one relocation at the slot's byte `field`.
fn one_relocation(draft: &mut Draft, slot: u64, field: u64, value: u64, entry: Relocation) {
    draft.slim();
    draft.text_base = 0xffff_82d0_8020_0000;
    draft.set_records(&[Record::new(0, draft.text_base, 1, 1)]);
    draft.slot_base = slot;
    draft.add_bytes("data", ".data", 1, &[0xee; 4096]);
    let symbol = draft.add_symbol(Symbol::new(b"it", Ref::Number(0xfff1), value));
    let entry = Relocation { offset: field - 64, symbol, ..entry };
    draft.add(Section::relocations("rela", b"", Ref::To("data"), vec![entry]));
}

fn displacement(t: &mut Table) {
    for kind in [2, 4] {
        let facts =
            vec![Image(0xa6a, vec![0x4b, 0xb1, 0x05, 0x00]), Image(0xa66, vec![0xee; 4]), Image(0xa6e, vec![0xee; 4])];
        t.prepare("K3", format!("type {kind}"), Holds(facts), move |d| {
            let addend = -4i64 as u64;
            one_relocation(
                d,
                0xffff_82d0_8010_4000,
                0xa6a,
                0xffff_82d0_8015_fbb9,
                Relocation { kind, addend, ..Default::default() },
            );
        });
    }
}

fn limits(t: &mut Table) {
    let slot = 0xffff_82d0_8010_4000u64;
    let cases = [
        ("K4", 0x7fff_ffffi64, Some(vec![0xff, 0xff, 0xff, 0x7f])),
        ("K4", 0x8000_0000, None),
        ("K5", -0x8000_0000, Some(vec![0, 0, 0, 0x80])),
        ("K5", -0x8000_0001, None),
    ];
    for (id, distance, bytes) in cases {
        let expect = bytes.map_or(entry(34, "rela", 0), |bytes| Holds(vec![Image(100, bytes)]));
        t.prepare(id, format!("a relocation by {distance:#x}"), expect, move |d| {
            let value = (slot + 100).wrapping_add(distance as u64);
            one_relocation(d, slot, 100, value, Relocation { kind: 2, ..Default::default() });
        });
    }
}

fn offsets(t: &mut Table) {
    let facts = vec![Image(0, vec![0xaa; 13]), Image(13, vec![0; 3]), Image(16, vec![0xbb; 5]), Placed(21 + 64)];
    t.prepare("K6", "13 bytes aligned to 16, then 5 aligned to 8", Holds(facts), |d| {
        d.slim();
        d.add_bytes("second", ".data", 8, &[0xbb; 5]);
        d.put_first("second");
        d.add_bytes("first", ".text", 16, &[0xaa; 13]);
        d.put_first("first");
    });
}

fn notes(t: &mut Table) {
    for role in ["depends", "build_id"] {
        for (len, size) in [(20usize, 36usize), (1, 20)] {
            t.file("K7", format!("{role} of {len} bytes in {size}"), Accepted, move |d| {
                *d.bytes(role) = note(&vec![0xab; len]);
                assert_eq!(d.bytes(role).len(), size);
            });
        }
        t.file("K7", format!("{role} of 65 bytes"), at(22, role), move |d| *d.bytes(role) = note(&[0xab; 65]));
    }
}

fn sizes(t: &mut Table) {
    t.prepare("K8", "fill of 31", Holds(vec![Edit(0, TEXT_BASE, vec![0x90; 31])]), |d| {
        d.set_records(&[Record::new(0, TEXT_BASE, 31, 40)]);
    });
    t.prepare("K8", "fill of 32", record(22, 0), |d| d.set_records(&[Record::new(0, TEXT_BASE, 32, 40)]));
    for (old_size, expect) in [(4, record(22, 0)), (5, Accepted)] {
        t.prepare("K9", format!("jump over {old_size}"), expect, move |d| {
            d.slim();
            d.set_records(&[Record::new(d.slot_base, TEXT_BASE, 1, old_size)]);
        });
    }
}
