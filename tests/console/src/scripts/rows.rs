//! Uploads of the named changes that tests/differential has of one payload: each gets its own refusal, at every kind of place.

use super::writer::upload_length;
use super::Writer;
use crate::second::command::LINE;
use differential::mutations::Table;
use differential::payloads::template::{SLOT_BASE, TEXT_BASE};
use differential::rng::Rng;

pub fn rows(table: &Table, rng: &mut Rng) -> Vec<u8> {
    let mut writer = Writer::default();
    // not all of the text that the payload changes has room: its records are accepted or refused by where the text lies
    let base = TEXT_BASE + rng.pick(&[0, 0x1_0000, 0x2_0000, 0x3_0000]);
    let far = rng.one_in(6);
    let arena = if far { 1 << 30 } else { SLOT_BASE };
    writer.start(base, 65_536, arena, 1, &[0xd0; 20]);
    for number in 0..rng.between(4, 12) {
        let (input, _) = table.rows[rng.index(table.rows.len())].trial(rng.below(200));
        let name = format!("p{}", number % 10);
        if upload_length(name.as_bytes(), &input.list) <= LINE {
            writer.upload(name.as_bytes(), &input.list, &input.file, rng);
        }
    }
    writer.line("list");
    writer.close(rng)
}
