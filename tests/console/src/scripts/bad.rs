//! Bad lines.

use crate::second::command::LINE;
use crate::small::hex;
use differential::rng::Rng;

/// A line without a line feed in it, too long by little or by much.
pub fn long(rng: &mut Rng) -> Vec<u8> {
    let more = rng.pick(&[1, 1, 2, 100, 4_096, 9_000]);
    let byte = rng.pick(&[b'0', b'a', b' ', b'x', 0]);
    let mut line = vec![byte; LINE + more];
    let front: &[u8] = rng.pick(&[&b""[..], b"list ", b"end", b"get ", b"upload p ", b"report 0"]);
    line[..front.len()].copy_from_slice(front);
    line
}

/// A line that cannot be read outside a payload.
pub fn outside(rng: &mut Rng) -> Vec<u8> {
    let lines: [&[u8]; 40] = [
        b"", b" ", b"end", b"list ", b" list", b"list 0", b"LIST", b"list\r", b"list\0", b"lis", b"tick\t", b"\ttick",
        b"tick 1", b"work work", b"get", b"get ", b"get p1 p2", b"get  p1", b"act p1 3", b"act p1 3 0 0",
        b"act p1 x 0", b"act p1 3 -1", b"act p1 4294967296 0", b"act p1 3 4294967296", b"report", b"report ",
        b"report 0x0", b"report 4294967296", b"report 1 1", b"upload p1", b"upload p1 ", b"upload p1 0",
        b"upload p1 0A", b"upload p1 zz", b"upload p1 00 00", b"start", b"start 1 2 3 4",
        b"start 4096 65537 1048576 1 01", b"00ff", b"# a remark",
    ];
    if rng.one_in(12) {
        return long(rng);
    }
    rng.pick(&lines).to_vec()
}

/// A line that is neither `end` nor bytes.
pub fn inside(rng: &mut Rng) -> Vec<u8> {
    let count = rng.between(1, 40) as usize;
    let digits = hex(&rng.bytes(count)).into_bytes();
    let at = rng.index(digits.len());
    match rng.below(10) {
        0 => Vec::new(),
        1 => long(rng),
        2 => [&digits[..], b"0"].concat(),
        3 => [&digits[..at], b"A", &digits[at..], b"F"].concat(),
        4 => [&digits[..at], &[rng.pick(&[b'g', b' ', b'\r', 0, b'/', b':', b'`', b'@', 0xff])], &digits[at..], b"0"]
            .concat(),
        5 => hex(&vec![0xab; LINE / 2 + 1]).into_bytes(),
        6 => rng.pick(&[&b"end "[..], b" end", b"End", b"end\r", b"en", b"endend"]).to_vec(),
        7 => b"0x00".to_vec(),
        _ => {
            rng.pick(&[&b"list"[..], b"tick", b"upload p9 00000003010000", b"get p1", b"start 1 1 4096 1 01"]).to_vec()
        }
    }
}
