//! Scripts with bytes and lines changed, inserted and removed.

use differential::rng::Rng;

pub fn changed(mut script: Vec<u8>, rng: &mut Rng) -> Vec<u8> {
    for _ in 0..rng.pick(&[1, 1, 2, 3, 8, 30]) {
        if rng.one_in(4) {
            by_line(&mut script, rng);
        } else {
            by_byte(&mut script, rng);
        }
    }
    script
}

/// A place in the script, as often in a short line as anywhere: most bytes are those of payloads.
fn place(script: &[u8], rng: &mut Rng) -> usize {
    let any = rng.index(script.len() + 1);
    if rng.one_in(2) {
        return any;
    }
    let ends: Vec<usize> = (0..script.len()).filter(|at| script[*at] == b'\n').collect();
    let short = |pair: &&[usize]| pair[1] - pair[0] < 40;
    let starts: Vec<usize> = ends.windows(2).filter(short).map(|pair| pair[0]).collect();
    match starts.is_empty() {
        true => any,
        false => (rng.pick(&starts) + rng.index(40)).min(script.len()),
    }
}

fn by_byte(script: &mut Vec<u8>, rng: &mut Rng) {
    let at = place(script, rng);
    let any = rng.byte();
    let byte = rng.pick(&[b' ', b'\n', b'0', b'9', b'a', b'A', b'g', b'-', 0, b'\r', b'e', any]);
    match rng.below(4) {
        0 => script.insert(at, byte),
        1 if at < script.len() => drop(script.remove(at)),
        2 => {
            let end = (at + rng.pick(&[2, 20, 100, 5_000])).min(script.len());
            drop(script.drain(at..end));
        }
        _ => script[at..].iter_mut().take(1).for_each(|old| *old = byte),
    }
}

/// A line is doubled, removed or swapped with another.
fn by_line(script: &mut Vec<u8>, rng: &mut Rng) {
    let mut lines: Vec<&[u8]> = script.split_inclusive(|byte| *byte == b'\n').collect();
    if lines.is_empty() {
        return;
    }
    let (at, to) = (rng.index(lines.len()), rng.index(lines.len()));
    match rng.below(4) {
        0 => lines.insert(to, lines[at]),
        1 => drop(lines.remove(at)),
        2 => lines.insert(to, b"end\n"),
        _ => lines.swap(at, to),
    }
    *script = lines.concat();
}
