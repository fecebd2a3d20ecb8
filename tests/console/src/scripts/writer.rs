//! A script as it grows.

use crate::small::hex;
use differential::rng::Rng;

#[derive(Default)]
pub struct Writer {
    pub script: Vec<u8>,
}

impl Writer {
    pub fn line(&mut self, line: impl AsRef<[u8]>) {
        self.script.extend(line.as_ref());
        self.script.push(b'\n');
    }

    /// A line of these fields.
    pub fn fields(&mut self, fields: &[&[u8]]) {
        self.line(fields.join(&b' '));
    }

    pub fn start(&mut self, base: u64, size: u64, arena: u64, cpus: u32, id: &[u8]) {
        self.line(format!("start {base} {size} {arena} {cpus} {}", hex(id)));
    }

    pub fn upload_line(&mut self, name: &[u8], symbols: &[u8]) {
        self.fields(&[b"upload", name, hex(symbols).as_bytes()]);
    }

    /// An upload in lines of any lengths.
    pub fn upload(&mut self, name: &[u8], symbols: &[u8], file: &[u8], rng: &mut Rng) {
        self.upload_line(name, symbols);
        cut(file, rng).iter().for_each(|line| self.line(line));
        self.line("end");
    }

    /// The script, sometimes without its last line feed, sometimes with its last lines cut off.
    pub fn close(mut self, rng: &mut Rng) -> Vec<u8> {
        match rng.below(12) {
            0 | 1 => drop(self.script.pop()),
            2 => {
                let most = self.script.len().min(6_000);
                self.script.truncate(self.script.len() - rng.index(most + 1));
            }
            _ => (),
        }
        self.script
    }
}

/// The length of an upload line.
pub fn upload_length(name: &[u8], symbols: &[u8]) -> usize {
    "upload  ".len() + name.len() + 2 * symbols.len()
}

/// A payload's bytes as lines of hexadecimal: all of one length, or each of its own.
pub fn cut(file: &[u8], rng: &mut Rng) -> Vec<String> {
    let least = if file.len() > 4_000 { 16 } else { 1 };
    let any = rng.between(least, 2_048) as usize;
    let width = rng.pick(&[32, 32, 2_048, 2_047, any, least as usize, 0]);
    let mut lines = Vec::new();
    let mut rest = file;
    while !rest.is_empty() {
        let next = if width > 0 { width } else { rng.between(least, 300) as usize };
        let (line, after) = rest.split_at(next.min(rest.len()));
        lines.push(hex(line));
        rest = after;
    }
    lines
}
