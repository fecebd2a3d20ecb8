//! Payloads of the largest size and a little more, in lines of the largest length.

use super::Writer;
use crate::small::{hex, Small, NO_SYMBOLS};
use differential::rng::Rng;

const SIZES: [usize; 9] = [0, 1, 832, 32_767, 32_768, 32_769, 32_770, 40_000, 70_000];

pub fn limits(rng: &mut Rng) -> Vec<u8> {
    let mut writer = Writer::default();
    writer.start(1 << 20, 65_536, 1 << 21, 64, b"hype");
    for number in 0..rng.between(1, 4) {
        let size = rng.pick(&SIZES);
        let small = Small { id: *b"own.", depends: *b"hype", old: (1 << 20) + 65_530, returns: 3 };
        let mut file = small.file();
        file.resize(size, rng.byte());
        writer.upload_line(format!("p{number}").as_bytes(), &NO_SYMBOLS);
        let width = rng.pick(&[2_048, 2_048, 2_047, 1_000, 16]);
        let mut lines: Vec<String> = file.chunks(width).map(hex).collect();
        if rng.one_in(6) {
            // one digit more on the last line, or a line over the length
            let last = lines.pop().unwrap_or_default();
            lines.push(last + rng.pick(&["0", &"00".repeat(2_049)]));
        }
        lines.iter().for_each(|line| writer.line(line));
        writer.line("end");
    }
    writer.line("list");
    writer.close(rng)
}
