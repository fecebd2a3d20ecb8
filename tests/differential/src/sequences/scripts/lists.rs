//! Lists of every part with room of every size; names of every length.

use super::play::{name, plain, Play, CPUS, OK};
use super::Scripts;
use crate::sequences::call::Does;
use crate::sequences::plain::Edit;
use crate::surrounded::pattern;

pub const SCRIPTS: Scripts =
    &[("lists of every part", parts), ("room for a list", room), ("names of every length", names)];

const EDIT: [Edit; 1] = [Edit::NoOps(9, 9)];

fn parts(play: &mut Play) {
    let names = ["a", "bb", "ccc", "dddd", "eeeee", "ffffff", "ggggggg", "hhhhhhhh"];
    play.start(CPUS, OK);
    for loaded in 0..=8u32 {
        for idx in 0..=9u32 {
            for nr in 0..=9u32 {
                let (from, most) = (idx.min(loaded) as usize, nr as usize);
                let entries: Vec<(&str, u32, i32)> =
                    names[..loaded as usize][from..].iter().take(most).map(|name| (*name, 1, 0)).collect();
                if nr > 8 || idx > loaded {
                    let stated = if nr > 8 { 7 } else { 22 };
                    play.says(Does::List { idx, nr, room: [80, 1_280, 40] }, stated);
                } else {
                    let left = loaded - idx - entries.len() as u32;
                    play.list(idx, nr, [left, loaded], &entries);
                }
            }
        }
        if let Some(name) = names.get(loaded as usize) {
            play.upload(name, &plain(loaded as usize, loaded as u8 + 1, 0, &EDIT), OK);
        }
    }
    play.says(Does::List { idx: u32::MAX, nr: 1, room: [8, 128, 4] }, 22);
    play.says(Does::List { idx: 0, nr: u32::MAX, room: [8, 128, 4] }, 7);
}

/// Room is for nr entries, also where fewer are written; other bytes stay.
fn room(play: &mut Play) {
    play.start(CPUS, OK);
    play.upload("p", &plain(0, 1, 0, &EDIT), OK);
    for buffer in 0..3 {
        let mut room = [24, 384, 12];
        room[buffer] -= 1;
        play.says(Does::List { idx: 0, nr: 3, room }, 22);
        play.says(Does::List { idx: 1, nr: 3, room }, 22);
        play.says(Does::List { idx: 2, nr: 3, room }, 22);
        play.says(Does::List { idx: 2, nr: 9, room }, 7);
    }
    play.says(Does::List { idx: 1, nr: 0, room: [0; 3] }, OK);
    let room = [64, 1_000, 33];
    let answer = play.says(Does::List { idx: 0, nr: 3, room }, OK);
    if let Some(answer) = answer {
        for ((buffer, length), written) in answer.lists.iter().zip(room).zip([8, 128, 4]) {
            if buffer.inner()[written..] != pattern(length)[written..] {
                play.fault("a list wrote behind its entries".to_string());
            }
        }
    }
}

fn names(play: &mut Play) {
    play.start(CPUS, OK);
    let longest = "n".repeat(127);
    let texts = ["n", "nn", "nnn", &longest[..126], &longest];
    for (slot, text) in texts.iter().enumerate() {
        play.upload(text, &plain(slot, slot as u8 + 1, 0, &EDIT), OK);
        play.upload(text, &plain(slot, slot as u8 + 1, 0, &EDIT), 17);
        play.get(text, 1, 0);
    }
    let entries: Vec<(&str, u32, i32)> = texts.iter().map(|text| (*text, 1, 0)).collect();
    play.list(0, 8, [0, 5], &entries);
    play.says(Does::Get { name: name("nnnn") }, 2);
    play.says(Does::Get { name: name("") }, 22);
    play.says(Does::Get { name: b"nn".to_vec() }, 22);
    play.says(Does::Get { name: b"nn\0\0".to_vec() }, 22);
    play.says(Does::Get { name: name(&"n".repeat(128)) }, 22);
    play.says(Does::Action { name: Vec::new(), command: 9, time: 0 }, 22);
    play.says(Does::Action { name: name("m"), command: 9, time: 0 }, 2);
    play.says(Does::Action { name: name("n"), command: 9, time: 0 }, 22);
    play.get("n", 1, 0);
}
