//! Lines with fields at their bounds and past them.

use super::{bad, Writer};
use crate::second::command::LINE;
use crate::small::{hex, Small, NO_SYMBOLS};
use differential::rng::Rng;

/// Where text and arena lie, so that small payloads are accepted.
const BASE: u64 = 1 << 20;
const ARENA: u64 = 1 << 21;

pub fn lines(rng: &mut Rng) -> Vec<u8> {
    let mut writer = Writer::default();
    if !rng.one_in(10) {
        // from the far one no jump reaches the text
        let arena = rng.pick(&[ARENA, ARENA, ARENA, ARENA, ARENA, 1 << 40]);
        writer.start(BASE, 65_536, arena, 1, b"hype");
    }
    let mut names = vec![b"p1".to_vec()];
    for _ in 0..rng.between(5, 60) {
        if rng.one_in(6) {
            let name = name(rng);
            upload(&name, &mut writer, rng);
            names.push(name);
        } else {
            let line = line(&names, rng);
            writer.script.extend(&line);
            writer.script.extend(rng.pick(&[&b"\n"[..], b"\n", b"\n", b"\n", b"\n", b"\n", b"\r\n", b"\n\n"]));
        }
    }
    writer.close(rng)
}

/// A small payload.
fn upload(name: &[u8], writer: &mut Writer, rng: &mut Rng) {
    let mut id = *b"hype";
    id[0] = rng.byte();
    let small = Small { id, depends: *b"hype", old: BASE + rng.below(65_530), returns: 1 };
    writer.upload(name, &NO_SYMBOLS, &small.file(), rng);
}

/// A name of any length; some with bytes that a name cannot have.
fn name(rng: &mut Rng) -> Vec<u8> {
    let length = rng.pick(&[1, 2, 2, 20, 126, 127, 127, 128, 129, 1_000]);
    let (low, high) = rng.pick(&[(b'a', b'z'), (1, 31), (33, 255), (0, 255)]);
    let byte = |rng: &mut Rng| match rng.between(low.into(), high.into()) as u8 {
        b' ' | b'\n' => b'_',
        byte => byte,
    };
    (0..length).map(|_| byte(rng)).collect()
}

/// A number as a field, mostly one.
fn number(rng: &mut Rng) -> Vec<u8> {
    let bounds = [
        "0",
        "1",
        "2",
        "3",
        "4",
        "5",
        "63",
        "64",
        "65",
        "4095",
        "4096",
        "65535",
        "65536",
        "65537",
        "1048576",
        "2097152",
        "4294967294",
        "4294967295",
        "4294967296",
        "4294967297",
        "18446744073709486080",
        "18446744073709551615",
        "18446744073709551616",
        "18446744073709551617",
        "99999999999999999999",
        "100000000000000000000",
        "340282366920938463463374607431768211456",
        "340282366920938463463374607431768211457",
    ];
    let plain = rng.pick(&bounds).as_bytes().to_vec();
    let many = rng.pick(&[1, 2, 20, 50, 1_000, 4_000]);
    match rng.below(14) {
        0 => [&vec![b'0'; many][..], &plain].concat(),
        1 => (0..many).map(|_| b'0' + rng.below(10) as u8).collect(),
        2 => [&plain[..], rng.pick(&[&b"x"[..], b"\0", b".0", b"e1", b"\r", b"L"])].concat(),
        3 => [rng.pick(&[&b"+"[..], b"-", b"0x", b"\0", b"\t"]), &plain[..]].concat(),
        4 => rng.number().to_string().into_bytes(),
        _ => plain,
    }
}

/// Bytes as a field, mostly right.
fn bytes(rng: &mut Rng) -> Vec<u8> {
    let count = rng.pick(&[1, 1, 2, 4, 20, 63, 64, 65, 66, 500, 2_030, 2_047, 2_048, 2_049]);
    let digits = hex(&rng.bytes(count)).into_bytes();
    let at = rng.index(digits.len());
    match rng.below(10) {
        0 => digits[1..].to_vec(),
        1 => digits.to_ascii_uppercase(),
        2 => [&digits[..at], b"g", &digits[at + 1..]].concat(),
        _ => digits,
    }
}

fn line(names: &[Vec<u8>], rng: &mut Rng) -> Vec<u8> {
    let own = name(rng);
    let name = if rng.one_in(3) { own } else { names[rng.index(names.len())].clone() };
    let fields: Vec<Vec<u8>> = match rng.below(12) {
        0 => vec![b"start".to_vec(), number(rng), number(rng), number(rng), number(rng), bytes(rng)],
        1 => {
            let (base, arena) = (BASE.to_string().into_bytes(), ARENA.to_string().into_bytes());
            vec![b"start".to_vec(), base, number(rng), arena, number(rng), bytes(rng)]
        }
        2 => vec![b"upload".to_vec(), name, bytes(rng)],
        3 => vec![b"get".to_vec(), name],
        4 => vec![b"act".to_vec(), name, number(rng), number(rng)],
        5 => vec![
            b"act".to_vec(),
            name,
            rng.pick(&["1", "2", "3", "4", "0003"]).into(),
            rng.pick(&["0", "1", "2"]).into(),
        ],
        6 => vec![b"report".to_vec(), number(rng)],
        7 => vec![b"report".to_vec(), b"0".to_vec()],
        8 => vec![rng.pick(&["tick", "work", "list"]).into()],
        9 => return bad::outside(rng),
        10 => return exact(rng),
        _ => vec![rng.pick(&["tick", "work"]).into()],
    };
    joined(fields, rng)
}

/// The fields as a line, sometimes with a field or a space too many or too few.
fn joined(mut fields: Vec<Vec<u8>>, rng: &mut Rng) -> Vec<u8> {
    match rng.below(20) {
        0 => drop(fields.pop()),
        1 => fields.push(b"1".to_vec()),
        2 => fields.insert(rng.index(fields.len() + 1), Vec::new()),
        _ => (),
    }
    let space: &[u8] = if rng.one_in(40) { b"\t" } else { b" " };
    fields.join(space)
}

/// A line of exactly as many bytes as a line may have, or one more or less.
fn exact(rng: &mut Rng) -> Vec<u8> {
    let length = LINE - 1 + rng.index(3);
    let (front, fill): (&[u8], u8) = rng.pick(&[
        (&b"get "[..], b'n'),
        (b"report ", b'0'),
        (b"upload p ", b'0'),
        (b"start 1 1 4096 1 ", b'a'),
        (b"act p1 3 ", b'0'),
        (b"x", b'x'),
    ]);
    let mut line = front.to_vec();
    line.resize(length, fill);
    line
}
