//! Bytes and words without sense.

use differential::rng::Rng;

const WORDS: [&str; 30] = [
    "start", "upload", "get", "list", "act", "report", "tick", "work", "end", " ", " ", " ", " ", "\n", "\n", "\n",
    "\n", "0", "1", "2", "3", "4096", "1048576", "2097152", "68797065", "p1", "00000003010000", "\r", "\0", "ff",
];

pub fn noise(rng: &mut Rng) -> Vec<u8> {
    let most = rng.pick(&[1, 10, 300, 5_000, 20_000]);
    let length = rng.index(most + 1);
    let mut script = Vec::new();
    if rng.one_in(2) {
        script.extend(b"start 1048576 4096 2097152 1 68797065\n");
    }
    match rng.below(4) {
        0 => script.extend(rng.bytes(length)),
        1 => (0..length).for_each(|_| script.push(rng.pick(b"0123456789abcdef\n"))),
        2 => (0..length).for_each(|_| script.push(rng.pick(b"start list end 01\n\n"))),
        _ => (0..length / 4).for_each(|_| script.extend(rng.pick(&WORDS).bytes())),
    }
    script
}
