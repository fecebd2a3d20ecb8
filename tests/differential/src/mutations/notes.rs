//! NOTE: the two note sections.

use super::{at, Expect::Accepted, Expect::Holds, Fact, Table};
use crate::payloads::template::note;
use crate::payloads::Contents;

const ROLES: [&str; 2] = ["depends", "build_id"];

pub fn rows(table: &mut Table) {
    for role in ROLES {
        heads(table, role);
        lengths(table, role);
        sizes(table, role);
        padding(table, role);
        short(table, role);
        values(table, role);
    }
    order(table);
}

/// Sets four bytes of a note.
fn word(t: &mut Table, role: &'static str, id: &'static str, what: &str, offset: usize, values: &[u32]) {
    for value in values.iter().copied() {
        t.file(id, format!("{role}: {what} {value:#x}"), at(22, role), move |d| {
            d.bytes(role)[offset..offset + 4].copy_from_slice(&value.to_le_bytes());
        });
    }
}

fn heads(t: &mut Table, role: &'static str) {
    word(t, role, "NOTE-01", "name size", 0, &[0, 3, 5, 8, 0x104, 0x0400_0000, 0x0100_0004, u32::MAX]);
    word(
        t,
        role,
        "NOTE-01",
        "description size",
        4,
        &[0, 1, 32, 33, 36, 63, 64, 65, 68, 0x114, 0x0100_0014, 0x8000_0014, 0xffff_fff0, u32::MAX],
    );
    word(t, role, "NOTE-01", "type", 8, &[0, 1, 2, 4, 5, 0x103, 0x0300_0000, 0x0100_0003, u32::MAX]);
    for (byte, value) in [(12, b'g'), (13, b'n'), (14, b'u'), (15, b' '), (15, 1), (12, 0)] {
        t.file("NOTE-01", format!("{role}: name byte {byte} is {value:#x}"), at(22, role), move |d| {
            d.bytes(role)[byte] = value
        });
    }
}

fn lengths(t: &mut Table, role: &'static str) {
    for len in 1..=64usize {
        t.file("NOTE-02", format!("{role}: description of {len} bytes"), Accepted, move |d| {
            *d.bytes(role) = note(&vec![0x5a; len]);
        });
        t.file("NOTE-02", format!("{role}: description of {len} bytes, last byte missing"), at(22, role), move |d| {
            *d.bytes(role) = note(&vec![0x5a; len]);
            d.bytes(role).pop();
        });
        t.file("NOTE-02", format!("{role}: description of {len} bytes, a word more"), at(22, role), move |d| {
            *d.bytes(role) = [note(&vec![0x5a; len]), vec![0; 4]].concat();
        });
    }
    for len in [0, 65, 66, 67, 68, 69, 72, 96, 128, 255, 256] {
        t.file("NOTE-01", format!("{role}: a whole note with a description of {len} bytes"), at(22, role), move |d| {
            *d.bytes(role) = note(&vec![0x5a; len]);
        });
    }
    for more in [1, 2, 3] {
        t.file("NOTE-02", format!("{role}: {more} bytes more"), at(22, role), move |d| {
            *d.bytes(role) = [note(&[0x5a; 20]), vec![0; more]].concat();
        });
    }
    t.file("NOTE-02", format!("{role}: no padding (17 bytes)"), at(22, role), move |d| {
        *d.bytes(role) = note(&[7])[..17].to_vec();
    });
    t.file("NOTE-02", format!("{role}: two notes"), at(22, role), move |d| {
        *d.bytes(role) = [note(&[7; 20]), note(&[8; 20])].concat();
    });
    t.file("NOTE-02", format!("{role}: padded to 8"), at(22, role), move |d| {
        *d.bytes(role) = [note(&[7; 4]), vec![0; 4]].concat();
    });
}

/// Sizes of a description that is all zero, so that its end may be padding, in notes of 64 and of 68 bytes after their heads.
fn sizes(t: &mut Table, role: &'static str) {
    for (room, size) in [(64, 60), (64, 61), (64, 63), (64, 64), (64, 65), (64, 68), (68, 64), (68, 65), (68, 68)] {
        let expect = if room == 64 && (61..=64).contains(&size) { Accepted } else { at(22, role) };
        t.file("NOTE-02", format!("{role}: size {size} of a description in {room} bytes"), expect, move |d| {
            *d.bytes(role) = note(&vec![0; room]);
            d.bytes(role)[4] = size;
        });
    }
}

fn padding(t: &mut Table, role: &'static str) {
    for len in [1usize, 2, 3, 5, 6, 7, 29, 30, 31, 33, 61, 62, 63] {
        for byte in len..(len + 3) / 4 * 4 {
            for value in [1, 0x80] {
                let name = format!("{role}: description of {len}, padding byte {} is {value:#x}", byte - len);
                t.file("NOTE-03", name, at(22, role), move |d| {
                    *d.bytes(role) = note(&vec![0x5a; len]);
                    d.bytes(role)[16 + byte] = value;
                });
            }
        }
    }
}

fn short(t: &mut Table, role: &'static str) {
    for len in 0..=16 {
        t.file("NOTE-04", format!("{role}: section of {len} bytes"), at(22, role), move |d| {
            d.bytes(role).truncate(len)
        });
    }
    t.file("NOTE-04", format!("{role}: an empty section at the file's end"), at(22, role), move |d| {
        d.section(role).contents = Contents::Bytes(Vec::new());
        d.then(move |a| a.set(role, crate::payloads::assemble::section_field::OFFSET, a.file.len() as u64));
    });
}

fn values(t: &mut Table, role: &'static str) {
    let described: [&[u8]; 8] =
        [&[0], &[0xff], &[0xff; 32], &[0xff; 33], &[0; 64], &[0xff; 64], &[0xaa, 0], &[0, 0, 0, 1]];
    for bytes in described {
        let fact = match role {
            "depends" => Fact::Dependency(bytes.to_vec()),
            _ => Fact::BuildId(bytes.to_vec()),
        };
        t.file("NOTE-06", format!("{role}: description {bytes:02x?}"), Holds(vec![fact.clone()]), move |d| {
            *d.bytes(role) = note(bytes);
        });
        for flags in [0, 2] {
            t.file(
                "NOTE-07",
                format!("{role}: description {bytes:02x?}, flags {flags}"),
                Holds(vec![fact.clone()]),
                move |d| {
                    *d.bytes(role) = note(bytes);
                    d.section(role).flags = flags;
                },
            );
        }
    }
}

fn order(t: &mut Table) {
    for (lower, upper) in [("build_id", "depends"), ("depends", "build_id")] {
        t.file("NOTE-05", format!("both broken, {lower} first"), at(22, lower), move |d| {
            d.put_before(lower, upper);
            d.bytes(lower)[8] = 1;
            d.bytes(upper)[0] = 1;
        });
        t.file("NOTE-05", format!("{upper} broken alone, {lower} first"), at(22, upper), move |d| {
            d.put_before(lower, upper);
            d.bytes(upper)[12] = 1;
        });
    }
    t.file("NOTE-05", "both alike", Accepted, |d| {
        *d.bytes("depends") = note(b"same");
        *d.bytes("build_id") = note(b"same");
    });
}
