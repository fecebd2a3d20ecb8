//! ARG: the other arguments: lengths of the buffers, text range, slot base.

use super::{nowhere, Expect::Accepted, Expect::Holds, Fact::*, Table};
use crate::payloads::template::{TEXT_BASE, TEXT_LEN};
use crate::payloads::{Draft, Record};

/// One fill of text's first byte, named where its address is 0, and no relocations.
fn fill_first(draft: &mut Draft) {
    draft.slim();
    draft.add_bytes("name", ".rodata.name", 1, b"first\0");
    draft.list = vec![(b"first".to_vec(), draft.text_base)];
    draft.set_records(&[Record { name: draft.address("name"), ..Record::new(0, 0, 1, 1) }]);
}

pub fn rows(table: &mut Table) {
    buffers(table);
    texts(table);
    slots(table);
}

fn buffers(t: &mut Table) {
    let wrong: [&[usize]; 3] =
        [&[0, 1, 4096, 8191, 8193, 65536], &[0, 48, 768, 1488, 1535, 1537, 1584], &[0, 16, 64, 80, 143, 145, 288]];
    for (buffer, lens) in wrong.into_iter().enumerate() {
        for len in lens.iter().copied() {
            let what = ["image", "edits", "summary"][buffer];
            t.prepare("ARG-01", format!("{what} buffer of {len} bytes"), nowhere(22), move |d| d.buffers[buffer] = len);
        }
    }
}

fn texts(t: &mut Table) {
    let lens = [
        (0, false),
        (1, true),
        (2, true),
        (1 << 24, true),
        ((1 << 24) + 1, false),
        (1 << 32, false),
        ((1 << 32) + 1, false),
        (u64::MAX, false),
    ];
    for (len, good) in lens {
        t.prepare("ARG-02", format!("text of {len:#x} bytes"), if good { Accepted } else { nowhere(22) }, move |d| {
            d.text_len = len;
            d.slot_base = TEXT_BASE + (1 << 25);
            fill_first(d);
        });
    }
    let ranges = [
        (0, 1 << 24, true),
        (1, 1, true),
        (u64::MAX, 1, true),
        (u64::MAX, 2, false),
        (0u64.wrapping_sub(1 << 24), 1 << 24, true),
        (1u64.wrapping_sub(1 << 24), 1 << 24, false),
        (u64::MAX - 4, 5, true),
        (u64::MAX - 4, 6, false),
    ];
    for (base, len, good) in ranges {
        t.prepare(
            "ARG-03",
            format!("text of {len:#x} bytes at {base:#x}"),
            if good { Accepted } else { nowhere(22) },
            move |d| {
                (d.text_base, d.text_len) = (base, len);
                fill_first(d);
            },
        );
    }
}

fn slots(t: &mut Table) {
    let top = 0u64.wrapping_sub(8192);
    for (base, good) in [
        (0, false),
        (1, false),
        (2048, false),
        (4095, false),
        (4096, true),
        (4097, false),
        (8192, true),
        (top - 1, false),
        (top, true),
        (top + 1, false),
        (top + 4096, false),
        (u64::MAX, false),
    ] {
        t.prepare("ARG-04", format!("slot at {base:#x}"), if good { Accepted } else { nowhere(22) }, move |d| {
            d.slot_base = base;
            fill_first(d);
        });
    }
    let facts = vec![Edits(1), Edit(0, 0, vec![0x90]), Placed(70)];
    t.prepare("ARG-04", "slot at 2^32, text at 0", Holds(facts), |d| {
        d.slot_base = 0x1_0000_0000;
        d.text_base = 0;
        fill_first(d);
    });
    shared(t);
}

/// A slot beside the text, and with a byte of it.
fn shared(t: &mut Table) {
    for (what, base, good) in [
        ("right behind the text", TEXT_BASE + TEXT_LEN, true),
        ("over the text's last page", TEXT_BASE + TEXT_LEN - 4096, false),
        ("inside the text", TEXT_BASE + 8192, false),
        ("over the text's first page", TEXT_BASE - 4096, false),
        ("right before the text", TEXT_BASE - 8192, true),
    ] {
        t.prepare("ARG-05", format!("slot {what}"), if good { Accepted } else { nowhere(22) }, move |d| {
            d.slot_base = base;
            fill_first(d);
        });
    }
    t.prepare("ARG-05", "a text of one byte inside the slot", nowhere(22), |d| {
        (d.text_base, d.text_len) = (d.slot_base + 8191, 1);
        fill_first(d);
    });
}
