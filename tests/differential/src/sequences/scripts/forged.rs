//! Forged records: those that are no state in range are refused by every call, others are taken as they are.

use super::play::{name, plain, Play, CPUS, OK};
use super::Scripts;
use crate::payloads::assemble::{list_bytes, put};
use crate::second::calls::codec::{edit_at, payload_at};
use crate::second::calls::state::{APPLY, REPLACE, REVERT, UNLOAD};
use crate::sequences::call::Does;
use crate::sequences::plain::Edit;
use std::rc::Rc;

pub const SCRIPTS: Scripts = &[
    ("forged records that are refused", refused),
    ("forged jobs that are refused", refused_jobs),
    ("forged numbers that are taken", taken),
    ("forged payloads that are taken", taken_payloads),
    ("forged numbers at their limits", taken_limits),
    ("forged jobs that are taken", taken_jobs),
];

/// Offset, width and value of a change.
type Change = (usize, usize, u64);

/// Where the payloads begin, and the edits in a payload.
const A: usize = payload_at(0);
const B: usize = payload_at(1);
const C: usize = payload_at(2);
const D: usize = payload_at(3);
const EDITS: usize = edit_at(0, 0) - A;
const EDIT_COUNT: usize = EDITS - 4;
/// The last edit of all.
const LAST: usize = edit_at(7, 31);

/// a applied with two edits, b applied on it, c checked.
fn three(play: &mut Play) {
    play.start(CPUS, OK);
    play.upload("a", &plain(0, 1, 0, &[Edit::Jump(64), Edit::NoOps(0, 31)]), OK);
    play.upload("b", &plain(1, 2, 1, &[Edit::NoOps(66, 4)]), OK);
    play.upload("c", &plain(2, 3, 2, &[Edit::NoOps(4_095, 1)]), OK);
    play.job("a", APPLY, 2);
    play.job("b", APPLY, 1);
}

/// Tries calls with some changes of the records.
fn with(play: &mut Play, changes: &[Change], calls: impl Fn(&mut Play)) {
    play.session.forge(|memory| {
        changes.iter().for_each(|(at, width, value)| put(memory.records.inner_mut(), *at, *width, *value));
    });
    calls(play);
    play.session.restore();
}

/// Every call but start-up gives 22.
fn all_refuse(play: &mut Play) {
    let file = plain(3, 4, 2, &[Edit::Jump(9)]).file(&play.world);
    let upload = Does::Upload { name: name("new"), symbols: Rc::new(list_bytes(&[])), file: Rc::new(file) };
    let action = |text: &str, command| Does::Action { name: name(text), command, time: 0 };
    let calls = [
        upload,
        Does::Get { name: name("c") },
        Does::List { idx: 0, nr: 8, room: [64, 1_024, 32] },
        action("c", UNLOAD),
        action("b", REVERT),
        action("c", APPLY),
        Does::Report { cpu: 0 },
        Does::Tick,
        Does::Work,
        Does::TopBuildId,
    ];
    calls.into_iter().for_each(|does| drop(play.says(does, 22)));
}

#[rustfmt::skip]
const REFUSED: [Change; 62] = [
    // start-up's numbers
    (8, 8, 0), (8, 8, (1 << 24) + 1), (0, 8, u64::MAX), (0, 8, 0xffff_82d0_803f_ffff), (16, 8, 0),
    (16, 8, 0xffff_82d0_8040_0001), (16, 8, u64::MAX - 4_095), (24, 4, 0), (24, 4, 65), (28, 4, 0), (28, 4, 65),
    // the counts
    (32, 8, 9), (32, 8, u64::MAX), (32, 8, 1), (32, 8, 4), (40, 8, 4), (40, 8, 1 << 32), (40, 8, 9),
    // the stack
    (132, 4, 3), (136, 4, 8), (136, 4, 1 << 31),
    // name, slot, status, lengths
    (A + 128, 4, 0), (A + 128, 4, 1), (A + 128, 4, 3), (A + 128, 4, 129), (A, 1, 0), (A + 1, 1, 1), (A + 132, 4, 8),
    (C + 132, 4, 8), (C + 132, 4, u64::MAX), (A + 136, 4, 0), (B + 136, 4, 3), (C + 136, 4, 258), (A + 144, 4, 0),
    (B + 144, 4, 65), (C + 148, 4, 0), (C + 148, 4, 65), (A + EDIT_COUNT, 4, 0), (A + EDIT_COUNT, 4, 3),
    (A + EDIT_COUNT, 4, 33),
    // edits: a jump of 5 bytes, then 31 no-ops
    (A + EDITS + 4, 4, 4), (A + EDITS + 4, 4, 6), (A + EDITS, 4, 4_092), (A + EDITS, 4, 0xffff_ffff),
    (A + EDITS + 24, 4, 0), (A + EDITS + 24, 4, 32), (A + EDITS + 20, 4, 4_066), (C + EDITS + 4, 4, 2),
    // bytes that are no state, also behind the counts
    (68, 1, 2), (131, 1, 255), (A + EDITS + 8, 4, 2), (A + EDITS + 8, 4, 0), (A + EDITS + 8, 4, 257),
    (A + EDITS + 32, 8, 1), (A + EDITS + 32, 8, 1 << 63), (C + EDITS + 20 + 8, 4, 2), (C + EDITS + 20 + 12, 8, 1),
    (LAST + 8, 4, 2), (LAST + 8, 4, 1 << 31), (LAST + 12, 8, 1), (LAST + 19, 1, 1), (edit_at(5, 0) + 11, 1, 1),
];

fn refused(play: &mut Play) {
    three(play);
    for change in REFUSED {
        with(play, &[change], all_refuse);
    }
    play.get("c", 1, 0);
}

/// Action, slot, ticks left and steps done.
fn job(action: u64, slot: u64, ticks: u64, steps: u64) -> [Change; 4] {
    [(52, 4, action), (56, 4, slot), (60, 4, ticks), (64, 4, steps)]
}

fn refused_jobs(play: &mut Play) {
    three(play);
    let jobs = [
        job(1, 0, 1, 0),
        job(5, 0, 1, 0),
        job(1 << 31, 0, 1, 0),
        job(2, 3, 1, 0),
        job(4, 8, 1, 0),
        job(2, 1, 0, 0),
        job(3, 2, 0, 0),
        job(2, 1, 1, 1),
        job(2, 0, 1, 2),
        job(3, 2, 1, 1),
        job(4, 2, 1, 4),
        job(4, 2, 1, u64::MAX),
    ];
    jobs.iter().for_each(|changes| with(play, changes, all_refuse));
    let with_stack = |action, slot, applied| [&job(action, slot, 1, 0)[..], &[(40, 8, applied)]].concat();
    with(play, &with_stack(2, 0, 0), all_refuse);
    with(play, &[&with_stack(3, 2, 3)[..], &[(140, 4, 2)]].concat(), all_refuse);
}

fn taken(play: &mut Play) {
    three(play);
    // version and results have no range; the version wraps
    with(play, &[(48, 4, u64::MAX), (A + 140, 4, 0xffff_ff9c), (C + 140, 4, 1 << 31)], |play| {
        play.list(0, 8, [0, u32::MAX], &[("a", 2, 100), ("b", 2, 0), ("c", 1, i32::MIN)]);
        play.action("c", UNLOAD, 0, OK);
        play.list(2, 8, [0, 0], &[]);
    });
    // what lies behind a count stays as it is, and moves up with an unload
    with(play, &[(144, 4, 9), (D + 128, 4, 200), (D + 132, 4, 77), (A + EDITS + 40, 4, 5)], |play| {
        play.action("c", UNLOAD, 0, OK);
        play.holds("the record behind the last has moved up", |memory| {
            let records = memory.records.inner();
            records[C + 128] == 200 && records[C + 132] == 77 && records[D + 128] == 0 && records[144] == 9
        });
    });
}

/// Names, slots and statuses that no calls leave.
fn taken_payloads(play: &mut Play) {
    three(play);
    // two payloads in one slot: it names the first; the free slot is another
    with(play, &[(C + 132, 4, 1), (C + 144, 4, 7)], |play| {
        play.top(Some(1));
        play.upload("new", &plain(2, 4, 2, &[Edit::Jump(9)]), OK);
    });
    // an unload zeroes what is saved, also of one that is applied
    with(play, &[(B + 136, 4, 1), (40, 8, 1)], |play| {
        play.action("b", UNLOAD, 0, OK);
        play.holds("slot 1 is zero in the undo store", |memory| memory.undo.inner()[992..1_984] == [0; 992]);
        play.holds("slot 0 is not", |memory| memory.undo.inner()[..992] != [0; 992]);
    });
    // two payloads of one name: it names the first
    with(play, &[(C, 1, u64::from(b'b'))], |play| {
        play.get("b", 2, 0);
        play.action("b", UNLOAD, 0, 22);
        play.list(0, 8, [0, 3], &[("a", 2, 0), ("b", 2, -22), ("b", 1, 0)]);
    });
    // a stack that names one payload twice, and statuses that do not fit it
    with(play, &[(136, 4, 0), (C + 136, 4, 2), (A + 136, 4, 1)], |play| {
        play.top(Some(0));
        play.action("c", REVERT, 0, 33);
        play.action("a", REPLACE, 0, OK);
        play.report_all();
        play.work(6, OK);
        play.list(0, 8, [0, 3], &[("a", 2, 0), ("b", 1, 0), ("c", 1, -33)]);
    });
    play.list(0, 8, [0, 3], &[("a", 2, 0), ("b", 2, 0), ("c", 1, 0)]);
}

/// Lengths of ids up to 64, and 32 edits.
fn taken_limits(play: &mut Play) {
    three(play);
    for length in [1, 32, 33, 63, 64] {
        for at in [24, A + 144, B + 144, C + 148] {
            with(play, &[(at, 4, length)], |play| play.get("c", 1, 0));
        }
    }
    // the edits behind the first have no bytes to write
    for count in [2, 17, 32] {
        with(play, &[(C + EDIT_COUNT, 4, count)], all_refuse);
        let one_each: Vec<Change> = (1..count as usize).map(|edit| (edit_at(2, edit) + 4, 4, 1)).collect();
        with(play, &[&one_each[..], &[(C + EDIT_COUNT, 4, count)]].concat(), |play| {
            play.job("c", APPLY, count as u32);
            play.top(Some(2));
            play.job("c", REVERT, count as u32);
        });
    }
}

fn taken_jobs(play: &mut Play) {
    three(play);
    let held: [Change; 4] = [(68, 1, 1), (69, 1, 1), (70, 1, 1), (71, 1, 1)];
    // a revert of one that isn't top, at its last step
    with(play, &[&job(2, 0, 1, 1)[..], &held].concat(), |play| {
        play.ticks(3, OK);
        play.action("b", UNLOAD, 0, 22);
        play.work(1, OK);
        play.list(0, 8, [0, 3], &[("a", 1, 0), ("b", 2, -22), ("c", 1, 0)]);
        play.top(Some(0));
    });
    // two payloads in the job's slot: it is the first one's
    let twice: [Change; 3] = [(C + 132, 4, 1), (C + 136, 4, 2), (C + 140, 4, 33)];
    with(play, &[&job(2, 1, 1, 0)[..], &held, &twice].concat(), |play| {
        play.work(1, OK);
        play.list(0, 8, [0, 3], &[("a", 2, 0), ("b", 1, 0), ("c", 2, -33)]);
    });
    with(play, &[&job(2, 1, 1, 0)[..], &twice].concat(), |play| {
        play.ticks(1, OK);
        play.list(0, 8, [0, 3], &[("a", 2, 0), ("b", 2, -16), ("c", 2, -33)]);
    });
    // an unload of another one that is in the job's slot
    with(play, &[&job(3, 2, 1, 0)[..], &[(A + 132, 4, 2), (A + 136, 4, 1), (132, 4, 1)]].concat(), |play| {
        play.action("a", UNLOAD, 0, 16);
        play.action("c", UNLOAD, 0, 16);
    });
    // a job whose last tick it is; the bytes of CPUs that the host does not have do not count
    with(play, &[&job(3, 2, 1, 0)[..], &[(72, 1, 1), (131, 1, 1)]].concat(), |play| {
        play.work(1, 16);
        play.ticks(1, OK);
        play.get("c", 1, -16);
        play.holds("nothing of the job is left", |memory| memory.records.inner()[52..132] == [0; 80]);
    });
    // a displacement of any size: its low 4 bytes are laid
    let edit: [Change; 3] =
        [(C + EDITS, 8, 5 << 32), (C + EDITS + 8, 4, 1), (C + EDITS + 12, 8, 0x8877_6655_4433_2211)];
    with(play, &[&job(3, 2, 1, 0)[..], &held, &edit].concat(), |play| {
        play.work(1, OK);
        play.holds("the jump is laid", |memory| memory.text.inner()[..5] == [0xe9, 0x11, 0x22, 0x33, 0x44]);
    });
}
