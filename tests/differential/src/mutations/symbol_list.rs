//! SYM: the symbol list.

use super::{nowhere, Expect::Accepted, Table};
use crate::payloads::assemble::{header_field, list_bytes};
use crate::payloads::Draft;

/// Gives the draft a list of these names, in this order, with addresses that rise from 1.
fn names(draft: &mut Draft, names: &[&[u8]]) {
    draft.list = names.iter().zip(1..).map(|(name, address)| (name.to_vec(), address)).collect();
}

/// Changes the bytes of the draft's list.
fn change(draft: &mut Draft, change: impl Fn(&mut Vec<u8>)) {
    let mut bytes = list_bytes(&draft.list);
    change(&mut bytes);
    draft.list_bytes = Some(bytes);
}

/// Sets the count of the bytes that follow to what it must be.
fn recount(list: &mut [u8]) {
    let following = list.len() as u32 - 4;
    list[..4].copy_from_slice(&following.to_be_bytes());
}

pub fn rows(table: &mut Table) {
    lengths(table);
    entry_counts(table);
    cut_entries(table);
    entries(table);
    order(table);
    whole(table);
}

fn lengths(t: &mut Table) {
    for len in 0..7usize {
        t.list("SYM-01", format!("list of {len} bytes"), nowhere(22), move |d| {
            d.list_bytes = Some([0, 0, 0, len.saturating_sub(4) as u8, 1, 0, 0][..len].to_vec());
        });
    }
    t.list("SYM-01", "list of 7 bytes with count 3", Accepted, |d| d.list_bytes = Some(vec![0, 0, 0, 3, 1, 0, 0]));
    t.list("SYM-01", "count one more than the bytes", nowhere(22), |d| change(d, |list| list[3] += 1));
    t.list("SYM-01", "count one less than the bytes", nowhere(22), |d| change(d, |list| list[3] -= 1));
    t.list("SYM-01", "count of the whole list", nowhere(22), |d| change(d, |list| list[3] += 4));
    t.list("SYM-01", "count little-endian", nowhere(22), |d| change(d, |list| list[..4].reverse()));
    t.list("SYM-01", "count with a high byte", nowhere(22), |d| change(d, |list| list[0] = 1));
    t.list("SYM-01", "last byte missing", nowhere(22), |d| change(d, |list| list.truncate(list.len() - 1)));
    t.list("SYM-01", "one byte after the end", nowhere(22), |d| change(d, |list| list.push(0)));
    for version in [0, 2, 0x80, 0xff] {
        t.list("SYM-02", format!("version {version}"), nowhere(22), move |d| change(d, |list| list[4] = version));
    }
}

fn entry_counts(t: &mut Table) {
    t.list("SYM-03", "entry count 0x0100 with one entry", nowhere(22), |d| {
        names(d, &[b"a"]);
        change(d, |list| list[5..7].copy_from_slice(&[1, 0]));
    });
    for count in [255u16, 256, 300] {
        t.list("SYM-03", format!("{count} entries"), Accepted, move |d| numbered(d, count));
    }
    t.list("SYM-03", "65,535 entries", Accepted, |d| numbered(d, u16::MAX));
    t.once();
    t.list("SYM-03", "65,535 entries, the last two alike", nowhere(22), |d| {
        numbered(d, u16::MAX);
        let last = d.list.len() - 1;
        d.list[last].0 = d.list[last - 1].0.clone();
    });
    t.once();
}

fn cut_entries(t: &mut Table) {
    t.list("SYM-04", "one spare byte", nowhere(22), |d| {
        change(d, |list| {
            list.push(0);
            recount(list);
        })
    });
    t.list("SYM-04", "one entry more than counted", nowhere(22), |d| change(d, |list| list[6] -= 1));
    t.list("SYM-04", "one entry less than counted", nowhere(22), |d| change(d, |list| list[6] += 1));
    t.list("SYM-04", "an entry after a count of 0", nowhere(22), |d| {
        names(d, &[b"a"]);
        change(d, |list| list[6] = 0);
    });
    // the last entry has an address of 8 bytes, a length and a name of 17
    for (cut, what) in [(1, "name one short"), (17, "no name"), (18, "no length"), (19, "address one short")] {
        t.list("SYM-04", format!("last entry cut: {what}"), nowhere(22), move |d| {
            change(d, |list| {
                list.truncate(list.len() - cut);
                recount(list);
            })
        });
    }
    t.list("SYM-04", "last name length one more than its bytes", nowhere(22), |d| {
        change(d, |list| {
            let at = list.len() - 18;
            list[at] += 1;
        })
    });
}

/// A list of so many names of two bytes.
fn numbered(draft: &mut Draft, count: u16) {
    let name = |number: u32| vec![1 + (number / 256) as u8, 1 + (number / 16 % 16) as u8, 1 + (number % 16) as u8];
    draft.list = (0..u32::from(count)).map(|number| (name(number % 0xff00), u64::from(number))).collect();
    for (number, entry) in draft.list.iter_mut().enumerate().skip(0xff00) {
        entry.0 = vec![0xff, 0xff, 1 + (number % 256 / 16) as u8, 1 + (number % 16) as u8];
    }
}

fn entries(t: &mut Table) {
    for address in [0, 1, u64::MAX] {
        t.list("SYM-05", format!("address {address:#x}"), Accepted, move |d| d.list[0].1 = address);
    }
    for len in [1, 2, 126, 127] {
        t.list("SYM-06", format!("name of {len} bytes"), Accepted, move |d| names(d, &[&vec![b'n'; len]]));
    }
    for len in [0, 128, 129, 254, 255] {
        t.list("SYM-06", format!("name of {len} bytes"), nowhere(22), move |d| names(d, &[&vec![b'n'; len]]));
        t.list("SYM-06", format!("a later name of {len} bytes"), nowhere(22), move |d| {
            names(d, &[b"a", &vec![b'n'; len]])
        });
    }
    let zeros: [(&str, &[u8]); 4] =
        [("first", b"\0bc"), ("in the middle", b"a\0c"), ("last", b"ab\0"), ("the only byte", b"\0")];
    for (what, name) in zeros {
        t.list("SYM-07", format!("zero byte: {what}"), nowhere(22), move |d| names(d, &[name]));
        t.list("SYM-07", format!("zero byte in a later name: {what}"), nowhere(22), move |d| {
            names(d, &[b"\x01", &[&b"z"[..], name].concat()])
        });
    }
    t.list("SYM-07", "bytes 0x01 and 0xff in names", Accepted, |d| names(d, &[b"\x01", b"\x01\xff", b"\xff\x01 ~"]));
}

fn order(t: &mut Table) {
    let long = |last: u8| [&[b'n'; 126][..], &[last]].concat();
    let rising: [(&str, Vec<Vec<u8>>); 5] = [
        ("a < aa", vec![b"a".to_vec(), b"aa".to_vec()]),
        ("0x7f < 0x80", vec![vec![0x7f], vec![0x80]]),
        ("aa < ab < b", vec![b"aa".to_vec(), b"ab".to_vec(), b"b".to_vec()]),
        ("long names that differ in the last byte", vec![long(1), long(2)]),
        ("a longer name before a later letter", vec![b"azzzz".to_vec(), b"b".to_vec()]),
    ];
    for (what, list) in rising {
        let parts = |list: &[Vec<u8>]| list.iter().zip(1..).map(|(name, a)| (name.clone(), a)).collect::<Vec<_>>();
        let falling = list.iter().rev().cloned().collect::<Vec<_>>();
        t.list("SYM-08", format!("rising: {what}"), Accepted, move |d| d.list = parts(&list));
        t.list("SYM-08", format!("falling: {what}"), nowhere(22), move |d| d.list = parts(&falling));
    }
    t.list("SYM-08", "two names alike", nowhere(22), |d| names(d, &[b"a", b"a"]));
    t.list("SYM-08", "two long names alike", nowhere(22), |d| names(d, &[&[b'n'; 127], &[b'n'; 127]]));
    t.list("SYM-08", "the last two alike", nowhere(22), |d| names(d, &[b"a", b"b", b"c", b"c"]));
    t.list("SYM-08", "the last falls", nowhere(22), |d| names(d, &[b"a", b"b", b"d", b"c"]));
    t.list("SYM-08", "the last falls below the first", nowhere(22), |d| names(d, &[b"b", b"c", b"a"]));
}

fn whole(t: &mut Table) {
    t.list("SYM-09", "a broken last entry that nothing uses", nowhere(22), |d| d.list.push((b"z\0".to_vec(), 1)));
    t.list("SYM-09", "broken list before a wrong header", nowhere(22), |d| {
        d.list.push((b"z\0".to_vec(), 1));
        d.header(header_field::CLASS, 1);
    });
    t.list("SYM-09", "broken list before an empty file", nowhere(22), |d| {
        d.list.push((b"a".to_vec(), 1));
        d.then(|a| a.file.clear());
    });
    t.list("SYM-10", "the paper's list of 33 bytes", Accepted, |d| d.list_bytes = Some(papers_list()));
    t.list("SYM-10", "the paper's list, its address little-endian", Accepted, |d| {
        let mut list = papers_list();
        list[7..15].reverse();
        d.list_bytes = Some(list);
    });
    t.list("SYM-10", "the paper's list, its count little-endian", nowhere(22), |d| {
        let mut list = papers_list();
        list[5..7].reverse();
        d.list_bytes = Some(list);
    });
}

pub fn papers_list() -> Vec<u8> {
    let mut list = vec![0, 0, 0, 0x1d, 1, 0, 1, 0xff, 0xff, 0x82, 0xd0, 0x80, 0x13, 0x96, 0x3c, 0x11];
    list.extend(b"xen_extra_version");
    list
}
