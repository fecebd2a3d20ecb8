//! Stacks: K10, eight applied and taken off again, edits over edits, replace.

use super::play::{id, plain, Play, CPUS, OK};
use super::Scripts;
use crate::second::calls::state::{APPLY, REPLACE, REVERT};
use crate::sequences::call::Does;
use crate::sequences::plain::{lay, Edit, Plain};
use crate::sequences::world::World;

pub const SCRIPTS: Scripts = &[
    ("K10", k10),
    ("a stack of eight and back", eight),
    ("edits over edits", over_edits),
    ("a replace over seven in 256 steps", replace_seven),
    ("a replace with nothing applied", replace_nothing),
    ("dependencies by length and bytes", dependencies),
    ("ids of up to 64 bytes", long_ids),
];

/// "p1 applied, p2 checked, revert p2 gives 22; list(0, 8): 2 written, 0 left, version 2, ..".
fn k10(play: &mut Play) {
    play.start(CPUS, OK);
    play.upload("p1", &plain(0, 1, 0, &[Edit::Jump(64)]), OK);
    play.upload("p2", &plain(1, 2, 1, &[Edit::NoOps(80, 3)]), OK);
    play.job("p1", APPLY, 1);
    play.action("p2", REVERT, 0, 22);
    let answer = play.says(Does::List { idx: 0, nr: 8, room: [64, 1_024, 32] }, OK);
    let stated = [2, 0, 0, 0, 0, 0, 0, 0, 1, 0, 0, 0, 0xea, 0xff, 0xff, 0xff];
    if let Some(answer) = answer {
        if answer.lists[0].inner()[..16] != stated || answer.out.inner() != [2, 0, 0, 0, 0, 0, 0, 0, 2, 0, 0, 0] {
            play.fault("the list is not K10's".to_string());
        }
    }
    play.list(0, 8, [0, 2], &[("p1", 2, 0), ("p2", 1, -22)]);
}

/// The name of a payload by its slot.
const NAMES: [&str; 8] = ["p0", "p1", "p2", "p3", "p4", "p5", "p6", "p7"];

/// Eight payloads, each on the one before; with records of their own and one that all have.
fn chain(play: &mut Play) -> Vec<Plain> {
    let edits = |slot: u64| [Edit::NoOps(100 + slot, 2), Edit::Jump(200 + 8 * slot)];
    let payloads: Vec<Plain> =
        (0..8).map(|slot| plain(slot, slot as u8 + 1, slot as u8, &edits(slot as u64))).collect();
    play.start(CPUS, OK);
    NAMES.iter().zip(&payloads).for_each(|(name, payload)| play.upload(name, payload, OK));
    payloads
}

fn eight(play: &mut Play) {
    let payloads = chain(play);
    let mut texts = vec![play.world.text.clone()];
    play.top(None);
    for (slot, payload) in payloads.iter().enumerate() {
        // only the next one depends on the top build-id
        play.action(NAMES[(slot + 1) % 8], APPLY, 0, if slot == 7 { 22 } else { 33 });
        play.job(NAMES[slot], APPLY, 2);
        play.top(Some(slot as u32));
        let mut text = texts[slot].clone();
        lay(&mut text, &payload.writes(&play.world));
        play.text_is("that with one payload more", &text);
        texts.push(text);
    }
    play.action("p7", APPLY, 0, 22);
    for slot in (0..8).rev() {
        if slot > 0 {
            play.action(NAMES[slot - 1], REVERT, 0, 33);
            play.get(NAMES[slot - 1], 2, -33);
        }
        play.job(NAMES[slot], REVERT, 2);
        play.text_is("that with one payload less", &texts[slot]);
        play.get(NAMES[slot], 1, 0);
    }
    play.top(None);
    play.nothing_saved();
}

/// A revert from the middle would put old jumps back over newer ones.
fn over_edits(play: &mut Play) {
    let (first, second) = (plain(0, 1, 0, &[Edit::Jump(64)]), plain(1, 2, 1, &[Edit::Jump(66), Edit::NoOps(60, 5)]));
    play.start(CPUS, OK);
    play.upload("first", &first, OK);
    play.upload("second", &second, OK);
    play.job("first", APPLY, 1);
    play.job("second", APPLY, 2);
    let mut text = play.world.text.clone();
    lay(&mut text, &first.writes(&play.world));
    let one = text.clone();
    lay(&mut text, &second.writes(&play.world));
    play.action("first", REVERT, 0, 33);
    play.text_is("that with both", &text);
    play.holds("the saved bytes are those that the edits covered", |memory| {
        let (undo, saved) = (memory.undo.inner(), [&one[66..71], &[0; 26]].concat());
        undo[31 * 32..31 * 33] == saved && undo[31 * 33..31 * 33 + 5] == one[60..65]
    });
    play.job("second", REVERT, 2);
    play.text_is("that with the first", &one);
    play.job("first", REVERT, 1);
    let bare = play.world.text.clone();
    play.text_is("that at start-up", &bare);
    play.nothing_saved();
}

/// Thirty-two edits; those of all slots cover common bytes.
fn thirty_two(slot: usize) -> Vec<Edit> {
    let edit = |at: u64| {
        if at % 3 == 0 {
            Edit::Jump(40 * at + 3 * slot as u64)
        } else {
            Edit::NoOps(40 * at + slot as u64, 20)
        }
    };
    (0..32).map(edit).collect()
}

fn replace_seven(play: &mut Play) {
    play.start(CPUS, OK);
    for (slot, name) in NAMES.iter().enumerate() {
        let on = if slot == 7 { 0 } else { slot as u8 };
        play.upload(name, &plain(slot, slot as u8 + 1, on, &thirty_two(slot)), OK);
    }
    NAMES[..7].iter().for_each(|name| play.job(name, APPLY, 32));
    play.action("p5", REVERT, 0, 33);
    play.action("p7", REPLACE, 9, OK);
    play.report_all();
    play.work(224, OK);
    let mut text = play.world.text.clone();
    play.text_is("that at start-up, after 224 steps", &text);
    play.nothing_saved();
    play.work(31, OK);
    play.get("p7", 1, -11);
    play.get("p6", 2, 0);
    play.top(Some(6));
    play.work(1, OK);
    lay(&mut text, &plain(7, 8, 0, &thirty_two(7)).writes(&play.world));
    play.text_is("that with the last one alone", &text);
    play.top(Some(7));
    let results = |slot: usize| if slot == 5 { -33 } else { 0 };
    let entries: Vec<(&str, u32, i32)> =
        (0..8).map(|slot| (NAMES[slot], if slot == 7 { 2 } else { 1 }, results(slot))).collect();
    play.list(0, 8, [0, 8], &entries);
    play.job("p7", REVERT, 32);
    play.nothing_saved();
}

fn replace_nothing(play: &mut Play) {
    play.start(CPUS, OK);
    play.upload("a", &plain(0, 1, 0, &[Edit::NoOps(7, 31), Edit::Jump(0)]), OK);
    play.upload("b", &plain(1, 2, 1, &[Edit::NoOps(7, 31)]), OK);
    play.action("b", REPLACE, 0, 33);
    play.get("b", 1, -33);
    play.job("a", REPLACE, 2);
    play.action("a", REPLACE, 0, 22);
    play.get("a", 2, -22);
    play.action("b", REPLACE, 0, 33);
    play.job("b", APPLY, 1);
    play.top(Some(1));
}

/// A dependency that is a part of the top build-id, or of which it is a part, is another one.
fn dependencies(play: &mut Play) {
    let edit = [Edit::NoOps(9, 1)];
    let longer = [&id(0)[..], &[0]].concat();
    play.start(CPUS, OK);
    play.upload("short", &Plain::new(0, &id(1), &id(0)[..19], &edit), OK);
    play.upload("long", &Plain::new(1, &id(2), &longer, &edit), OK);
    play.upload("other", &Plain::new(2, &id(3), &id(9), &edit), OK);
    for name in ["short", "long", "other"] {
        play.action(name, APPLY, 0, 33);
        play.action(name, REPLACE, 0, 33);
    }
    play.upload("right", &Plain::new(3, &[7], &id(0), &edit), OK);
    play.upload("on", &Plain::new(4, &id(5), &[7], &edit), OK);
    play.upload("padded", &Plain::new(5, &id(6), &[7, 0], &edit), OK);
    play.job("right", APPLY, 1);
    play.action("padded", APPLY, 0, 33);
    play.job("on", APPLY, 1);
}

fn long_ids(play: &mut Play) {
    let (host, edit) = (play.world.host, [Edit::NoOps(9, 1)]);
    play.move_to(World::new(host.text_base, host.text_len, host.arena_base, &[7; 64], CPUS));
    play.start(CPUS, OK);
    play.upload("a", &Plain::new(0, &[1; 64], &[7; 64], &edit), OK);
    play.upload("b", &Plain::new(1, &[2; 33], &[1; 64], &edit), OK);
    play.upload("c", &Plain::new(2, &[3; 63], &[2; 33], &edit), OK);
    play.upload("short", &Plain::new(3, &[4; 32], &[1; 63], &edit), OK);
    play.upload("other", &Plain::new(4, &[5; 32], &[[7; 63].as_slice(), &[8]].concat(), &edit), OK);
    play.holds("the ids stand side by side, zeros after them", |memory| {
        let ids = memory.ids.inner();
        let stated = [vec![1; 64], vec![2; 33], vec![0; 31], vec![3; 63], vec![0; 1], vec![4; 32]].concat();
        ids[..stated.len()] == stated
    });
    play.action("other", REPLACE, 0, 33);
    play.top_of(None);
    for (slot, (name, length)) in [("a", 64), ("b", 33), ("c", 63)].into_iter().enumerate() {
        play.action("short", APPLY, 0, 33);
        play.job(name, APPLY, 1);
        play.top_of(Some((slot as u32, length)));
    }
}
