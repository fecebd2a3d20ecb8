//! Scripts of exact sizes, with the answers that they have to get.

use crate::report::Report;
use crate::second::command::LINE;
use crate::small::{hex, Small, NO_SYMBOLS};
use crate::stored::both;
use std::path::Path;

/// A script with its answers.
#[derive(Default)]
struct Told {
    script: Vec<u8>,
    answers: String,
}

impl Told {
    fn started() -> Told {
        let mut told = Told::default();
        told.says("start 1048576 4096 2097152 1 68797065", "ok\n");
        told
    }

    /// A line, and what is written for it.
    fn says(&mut self, line: impl AsRef<[u8]>, answer: &str) {
        self.script.extend(line.as_ref());
        self.script.push(b'\n');
        self.answers.push_str(answer);
    }

    /// A whole upload in lines of so many digits.
    fn upload(&mut self, front: &str, file: &[u8], digits: usize, answer: &str) {
        self.says(front, "");
        file.chunks(digits / 2).for_each(|bytes| self.says(hex(bytes), ""));
        self.says("end", answer);
    }
}

/// A line that begins so and has so many bytes.
fn filled(front: &str, fill: char, length: usize) -> String {
    let rest: String = std::iter::repeat(fill).take(length - front.len()).collect();
    format!("{front}{rest}")
}

/// A payload that is accepted, with zeros after it up to a size.
fn payload(size: usize) -> Vec<u8> {
    let mut file = Small { id: *b"one!", depends: *b"hype", old: 1_048_640, returns: 2 }.file();
    file.resize(size, 0);
    file
}

fn upload_line(name: &str) -> String {
    format!("upload {name} {}", hex(&NO_SYMBOLS))
}

fn lines() -> Told {
    let mut told = Told::started();
    told.says(filled("get ", 'n', 4_096), "no 22 0\n");
    told.says(filled("get ", 'n', 4_097), "bad line 3\n");
    told.says(filled("report ", '0', 4_096), "no 22 0\n");
    told.says(filled("report ", '0', 4_097), "bad line 5\n");
    told.says(filled("report ", '1', 4_096), "bad line 6\n");
    told.says(filled("list ", ' ', 4_096), "bad line 7\n");
    told.says(filled("", '\n', 1), "bad line 8\nbad line 9\n");
    told.says(filled("list", 'x', 1_000_000), "bad line 10\n");
    told.says("list", "version 0 count 0\n");
    told.says(filled("start 1048576 4096 2097152 1 ", '0', 4_095), "no 22 0\n");
    told.says(filled("start 1048576 4096 2097152 1 ", '0', 4_096), "bad line 13\n");
    told.says(filled("start 1048576 4096 2097152 01 ", '0', 4_096), "no 22 0\n");
    told.says(filled("start 1048576 4096 2097152 1 ", '0', 4_097), "bad line 15\n");
    told
}

fn payload_lines() -> Told {
    let mut told = Told::started();
    told.upload(&upload_line("p1"), &payload(2_048), 4_096, "ok\n");
    told.upload(&upload_line("p2"), &payload(2_049), 4_098, "");
    told.answers.push_str("bad line 6\n");
    told.says(upload_line("p2"), "");
    told.says(filled("", '0', 4_097), "bad line 9\n");
    told.says(filled("end", '0', 4_097), "");
    told.says(filled("end", ' ', 4_096), "");
    told.says("end", "");
    told.says("list", "version 1 count 1\np1 checked 0\n");
    told
}

fn last_line(length: usize, answer: &str) -> Told {
    let mut told = Told::started();
    told.says(filled("get ", 'n', length), answer);
    told.script.pop();
    told
}

fn payload_sizes() -> Told {
    let mut told = Told::started();
    told.upload(&upload_line("p1"), &payload(32_768), 4_096, "ok\n");
    for size in [32_769, 32_770, 40_000, 65_536, 98_304, 400_000] {
        told.upload(&upload_line("p2"), &payload(size), 4_000, "no 8 0\n");
    }
    // what comes before the file's size in the order of the checks
    told.upload(&upload_line("p1"), &payload(40_000), 4_096, "no 17 0\n");
    told.upload("upload p2 00", &payload(40_000), 4_096, "no 22 0\n");
    told.upload(&upload_line(&filled("", 'n', 128)), &payload(40_000), 4_096, "no 22 0\n");
    told.upload(&upload_line("p2"), &payload(32_768), 64, "ok\n");
    told.says("list", "version 2 count 2\np1 checked 0\np2 checked 0\n");
    told
}

/// A symbol list of 15 names and 2,043 bytes: the longest that a line has room for.
fn symbol_list() -> Vec<u8> {
    let mut list = vec![0, 0, 7, 247, 1, 0, 15];
    for (number, length) in [127; 14].into_iter().chain([123]).enumerate() {
        list.extend([0; 8]);
        list.push(length);
        list.extend(filled(&char::from(b'a' + number as u8).to_string(), 'n', length.into()).bytes());
    }
    list
}

fn symbol_lists() -> Told {
    let mut told = Told::started();
    let list = hex(&symbol_list());
    told.upload(&format!("upload p1 {list}"), &payload(843), 4_096, "ok\n");
    told.upload(&format!("upload p2 {list}"), &payload(843), 4_096, "ok\n");
    // a byte more, and no line: what follows are lines of their own
    told.says(format!("upload p3 {list}0"), "bad line 8\n");
    told.says("00", "bad line 9\n");
    told.says("end", "bad line 10\n");
    told.says("list", "version 2 count 2\np1 checked 0\np2 checked 0\n");
    told
}

/// More lines than 16 bits count.
fn many_lines() -> Told {
    let mut told = Told::default();
    for number in 1..=70_000 {
        told.says("x", &format!("bad line {number}\n"));
    }
    told
}

/// A payload of more lines than 16 bits count, then a bad line.
fn many_payload_lines() -> Told {
    let mut told = Told::started();
    told.upload(&upload_line("p1"), &payload(70_000), 2, "no 8 0\n");
    told.says("x", "bad line 70004\n");
    told
}

/// Both consoles on every script.
pub fn run(program: &Path, report: &mut Report) {
    let scripts = [
        ("lines of 4,096 and 4,097 bytes", lines()),
        ("payload lines of 4,096 and more", payload_lines()),
        ("a last line of 4,096 without line feed", last_line(LINE, "no 22 0\n")),
        ("a last line of 4,097 without line feed", last_line(LINE + 1, "bad line 2\n")),
        ("payloads of 32,768 bytes and more", payload_sizes()),
        ("symbol lists of 2,043 bytes and more", symbol_lists()),
        ("70,000 bad lines", many_lines()),
        ("a payload of 70,000 lines", many_payload_lines()),
    ];
    for (name, told) in scripts {
        both(program, name, &told.script, told.answers.as_bytes(), report);
    }
}
