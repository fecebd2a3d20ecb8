//! HDR: the file's size, the ELF header, e_shstrndx.

use super::{at, nowhere, Expect::Accepted, Table};
use crate::payloads::assemble::{header_field::*, put, section_field};
use crate::payloads::{Assembled, Contents, Field, Section};

/// Moves the section table to an offset that is the file's end or past it.
fn move_table(a: &mut Assembled, to: usize) {
    let rows = a.file[a.table..a.table + 64 * a.roles.len()].to_vec();
    a.file.resize(to, 0xee);
    a.file.extend(rows);
    a.table = to;
    a.set_header(SECTION_TABLE, to as u64);
}

pub fn rows(table: &mut Table) {
    sizes(table);
    fixed_fields(table);
    counts(table);
    tables(table);
    free_fields(table);
    names(table);
    order(table);
}

/// A file whose section table begins at offset 0: its first section header is the ELF header itself.
fn table_at_zero(sections: u64, names: u64, rest: &[u8]) -> Vec<u8> {
    let mut file = vec![0x7f, b'E', b'L', b'F', 2, 1, 1];
    file.resize(64, 0);
    for (field, value) in
        [(TYPE, 1), (MACHINE, 62), (VERSION, 1), (SECTION_SIZE, 64), (SECTION_COUNT, sections), (NAMES, names)]
    {
        put(&mut file, field.at, field.width, value);
    }
    file.extend(rest);
    file
}

fn sizes(t: &mut Table) {
    for len in [0, 1, 16, 63] {
        t.file("HDR-01", format!("file of {len} bytes"), nowhere(8), move |d| d.then(move |a| a.file.truncate(len)));
    }
    t.file("HDR-01", "file of 64 bytes: falls at e_shstrndx", nowhere(22), |d| {
        d.then(|a| a.file = table_at_zero(1, 0, &[]));
    });
    for len in [16_384, 16_385, 32_767, 32_768] {
        t.file("HDR-01", format!("file of {len} bytes"), Accepted, move |d| d.then(move |a| a.file.resize(len, 0xee)));
    }
    for len in [32_769, 40_000, 65_536] {
        t.file("HDR-01", format!("file of {len} bytes"), nowhere(8), move |d| {
            d.then(move |a| a.file.resize(len, 0xee))
        });
    }
    t.file("HDR-01", "file of 32,768 bytes, table last", Accepted, |d| {
        d.then(|a| move_table(a, 32_768 - 64 * a.roles.len()));
    });
    t.file("HDR-01", "file of 32,769 bytes, table last", nowhere(8), |d| {
        d.then(|a| move_table(a, 32_769 - 64 * a.roles.len()));
    });
}

fn fixed_fields(t: &mut Table) {
    for byte in 0..4usize {
        for change in [1, 0x80, 0xff] {
            t.file("HDR-02", format!("magic byte {byte} changed by {change:#x}"), nowhere(8), move |d| {
                d.then(move |a| a.file[byte] ^= change);
            });
        }
    }
    let wrong: [(&'static str, &str, Field, &[u64]); 7] = [
        ("HDR-03", "class", CLASS, &[0, 1, 3, 0x82]),
        ("HDR-03", "data", DATA, &[0, 2, 0x81]),
        ("HDR-03", "ident version", IDENT_VERSION, &[0, 2, 0xff]),
        ("HDR-04", "e_type", TYPE, &[0, 2, 3, 0x0101, 0x0100, 0xffff]),
        ("HDR-04", "e_machine", MACHINE, &[0, 61, 63, 3, 183, 0x013e, 0x3e00]),
        ("HDR-04", "e_version", VERSION, &[0, 2, 0x101, 0x1_0001, 0x0100_0001, 0xffff_ffff]),
        ("HDR-05", "e_shentsize", SECTION_SIZE, &[0, 40, 63, 65, 128, 0x0140, 0x4000]),
    ];
    for (id, what, field, values) in wrong {
        for value in values.iter().copied() {
            t.file(id, format!("{what} {value:#x}"), nowhere(8), move |d| d.header(field, value));
        }
    }
}

fn counts(t: &mut Table) {
    t.file("HDR-06", "e_shnum 0", nowhere(8), |d| d.header(SECTION_COUNT, 0));
    t.file("HDR-06", "e_shnum 0, the number in section 0's size", nowhere(8), |d| {
        d.header(SECTION_COUNT, 0);
        let count = d.sections.len() as u64;
        d.set("zero", section_field::SIZE, count);
    });
    t.file("HDR-06", "e_shnum 1: falls at e_shstrndx", nowhere(22), |d| {
        d.header(SECTION_COUNT, 1);
        d.header(NAMES, 0);
    });
    t.file("HDR-06", "e_shnum 1, section 0 of type 3: falls at section 0", at(22, "zero"), |d| {
        d.header(SECTION_COUNT, 1);
        d.header(NAMES, 0);
        d.set("zero", section_field::TYPE, 3);
    });
    for (count, expect) in [(63, Accepted), (64, Accepted), (65, nowhere(8)), (66, nowhere(8))] {
        t.file("HDR-06", format!("{count} sections"), expect, move |d| {
            let missing = count - d.sections.len();
            for number in 0..missing {
                let name = format!(".data.{number}");
                d.add(Section::new("more", name.as_bytes(), 1, 3, Contents::Bytes(vec![number as u8; 3])));
            }
        });
    }
    for count in [0x100, 0x0114, 0x4000, 0xffff] {
        t.file("HDR-06", format!("e_shnum {count:#x}"), nowhere(8), move |d| d.header(SECTION_COUNT, count));
    }
}

fn tables(t: &mut Table) {
    t.file("HDR-07", "table ends with the file", Accepted, |d| d.then(|a| move_table(a, a.file.len())));
    t.file("HDR-07", "table ends one byte past the file", nowhere(8), |d| {
        d.then(|a| move_table(a, a.file.len()));
        d.then(|a| a.file.truncate(a.file.len() - 1));
    });
    t.file("HDR-07", "e_shoff one too large", nowhere(8), |d| {
        d.then(|a| a.set_header(SECTION_TABLE, (a.file.len() - 64 * a.roles.len() + 1) as u64));
    });
    t.file("HDR-07", "e_shoff is the file's size", nowhere(8), |d| {
        d.then(|a| a.set_header(SECTION_TABLE, a.file.len() as u64));
    });
    t.file("HDR-07", "e_shoff such that the table ends at 2^64", nowhere(8), |d| {
        d.then(|a| a.set_header(SECTION_TABLE, (64 * a.roles.len() as u64).wrapping_neg()));
    });
    for high in [1 << 32, 1 << 63, 1 << 15] {
        t.file("HDR-07", format!("e_shoff more by {high:#x}"), nowhere(8), move |d| {
            d.then(move |a| a.set_header(SECTION_TABLE, a.table as u64 + high));
        });
    }
    for offset in [u64::MAX, u64::MAX - 63, 1 << 63] {
        t.file("HDR-07", format!("e_shoff {offset:#x}"), nowhere(8), move |d| d.header(SECTION_TABLE, offset));
    }
    for shift in 1..8 {
        t.file("HDR-09", format!("table at 8 times a number plus {shift}"), Accepted, move |d| {
            d.then(move |a| move_table(a, a.file.len() / 8 * 8 + 8 + shift));
        });
    }
    t.file("HDR-09", "table at 0, no type 3 there: falls at e_shstrndx", nowhere(22), |d| {
        d.then(|a| a.file = table_at_zero(2, 1, &[0; 64]));
    });
    t.file("HDR-09", "table at 0, section 1 of type 3: falls at section 0", at(22, "zero"), |d| {
        let mut row = [0; 64];
        row[4] = 3;
        d.then(move |a| a.file = table_at_zero(2, 1, &row));
    });
}

fn free_fields(t: &mut Table) {
    for (number, field) in FREE.into_iter().enumerate() {
        for value in [u64::MAX, 0x0102_0304_0506_0708] {
            t.file("HDR-08", format!("free header field {number} is {value:#x}"), Accepted, move |d| {
                d.header(field, value)
            });
        }
    }
}

fn names(t: &mut Table) {
    for index in [0xffff, 0xff00, 0xfff1, 0x100, 64] {
        t.file("HDR-10", format!("e_shstrndx {index:#x}"), nowhere(22), move |d| d.header(NAMES, index));
    }
    t.file("HDR-10", "e_shstrndx is e_shnum", nowhere(22), |d| d.header(NAMES, d.sections.len() as u64));
    t.file("HDR-10", "e_shstrndx with a high byte", nowhere(22), |d| d.header(NAMES, d.index("shstrtab") as u64 + 256));
    for role in ["zero", "gap", "text", "seven", "bss", "symtab", "rela_text", "comment", "depends"] {
        t.file("HDR-10", format!("e_shstrndx names {role}"), nowhere(22), move |d| {
            d.header(NAMES, d.index(role) as u64)
        });
    }
    t.file("HDR-10", "name table ends with the file", Accepted, |d| d.then(|a| names_at_end(a, 0)));
    t.file("HDR-10", "name table ends one byte past the file", nowhere(22), |d| d.then(|a| names_at_end(a, 1)));
    for (offset, size) in [(u64::MAX, 1), (1 << 63, 1 << 63), (0, u64::MAX), (1 << 32, 0), (u64::MAX, 2)] {
        t.file("HDR-10", format!("name table of {size:#x} bytes at {offset:#x}"), nowhere(22), move |d| {
            d.set("shstrtab", section_field::OFFSET, offset);
            d.set("shstrtab", section_field::SIZE, size);
        });
    }
}

/// Copies the section names to the file's end and lets their table run past it by so many bytes.
fn names_at_end(a: &mut Assembled, past: u64) {
    let names = a.contents("shstrtab").to_vec();
    let offset = a.file.len() as u64;
    a.file.extend(names);
    let size = a.get("shstrtab", section_field::SIZE);
    a.set("shstrtab", section_field::OFFSET, offset);
    a.set("shstrtab", section_field::SIZE, size + past);
}

fn order(t: &mut Table) {
    t.file("HDR-11", "wrong e_version before a wrong e_shstrndx", nowhere(8), |d| {
        d.header(VERSION, 2);
        d.header(NAMES, 0xffff);
    });
    t.file("HDR-11", "table outside the file before a wrong e_shstrndx", nowhere(8), |d| {
        d.header(SECTION_TABLE, 1 << 20);
        d.header(NAMES, 0xffff);
    });
    t.file("HDR-11", "wrong class before a section of unknown type", nowhere(8), |d| {
        d.header(CLASS, 1);
        d.set("text", section_field::TYPE, 5);
    });
    t.file("HDR-11", "wrong e_shstrndx before section 0's type", nowhere(22), |d| {
        d.header(NAMES, 0xffff);
        d.set("zero", section_field::TYPE, 1);
    });
    t.file("HDR-11", "wrong e_shstrndx before an unknown type", nowhere(22), |d| {
        d.header(NAMES, d.index("text") as u64);
        d.set("data", section_field::TYPE, 5);
    });
    t.file("HDR-11", "name table outside the file before an unknown type", nowhere(22), |d| {
        d.set("shstrtab", section_field::OFFSET, 1 << 20);
        d.set("data", section_field::TYPE, 5);
    });
}
