//! What start-up takes and refuses, and buffers of wrong sizes for every call.

use super::play::{id, name, plain, Play, CPUS, OK};
use super::Scripts;
use crate::payloads::assemble::list_bytes;
use crate::second::calls::state::{APPLY, UNLOAD};
use crate::sequences::call::{Buffer, Call, Does};
use crate::sequences::plain::Edit;
use crate::sequences::world::World;
use std::rc::Rc;

pub const SCRIPTS: Scripts =
    &[("start-up's numbers", starts), ("buffers of wrong sizes", sizes), ("start-up again", again)];

/// Text base and length, arena base, length of the build-id, CPUs, and the answer.
type Told = (u64, u64, u64, usize, u32, u64);

const TEXT: u64 = 0x20_0000;
const ARENA: u64 = 0x40_0000;
const MOST: u64 = 1 << 24;

const STARTS: [Told; 27] = [
    (TEXT, 4_096, ARENA, 20, 4, OK),
    (TEXT, 1, ARENA, 1, 1, OK),
    (TEXT, 0, ARENA, 20, 4, 22),
    (MOST, MOST, ARENA, 64, 64, OK),
    (MOST, MOST + 1, ARENA, 20, 4, 22),
    (TEXT, 4_096, ARENA, 0, 4, 22),
    (TEXT, 4_096, ARENA, 32, 4, OK),
    (TEXT, 4_096, ARENA, 33, 4, OK),
    (TEXT, 4_096, ARENA, 63, 4, OK),
    (TEXT, 4_096, ARENA, 65, 4, 22),
    (TEXT, 4_096, ARENA, 20, 0, 22),
    (TEXT, 4_096, ARENA, 20, 65, 22),
    (TEXT, 4_096, 0, 20, 4, 22),
    (TEXT, 4_096, ARENA + 2_048, 20, 4, 22),
    (TEXT, 4_096, ARENA + 1, 20, 4, 22),
    (0, 4_096, 4_096, 20, 4, OK),
    (0, 4_097, 4_096, 20, 4, 22),
    (1, 4_096, 4_096, 20, 4, 22),
    (ARENA + 65_536, 4_096, ARENA, 20, 4, OK),
    (ARENA + 65_535, 4_096, ARENA, 20, 4, 22),
    (ARENA + 1_000, 10, ARENA, 20, 4, 22),
    (u64::MAX - 4_095, 4_096, ARENA, 20, 4, OK),
    (u64::MAX - 4_095, 4_097, ARENA, 20, 4, 22),
    (u64::MAX, 1, ARENA, 20, 4, OK),
    (TEXT, 4_096, u64::MAX - 65_535, 20, 4, OK),
    (TEXT, 4_096, u64::MAX - 61_439, 20, 4, 22),
    (TEXT, 4_096, u64::MAX - 4_095, 20, 4, 22),
];

fn starts(play: &mut Play) {
    for (text_base, text_len, arena_base, build_id, cpus, stated) in STARTS {
        play.move_to(World::new(text_base, text_len, arena_base, &vec![7; build_id], cpus));
        play.start(cpus, stated);
        if stated == OK {
            play.top(None);
            play.list(0, 8, [0, 0], &[]);
            play.holds("arena and stores are zero", |memory| {
                let parts = [&memory.arena, &memory.undo, &memory.ids];
                parts.iter().all(|part| part.inner().iter().all(|byte| *byte == 0))
            });
        }
    }
}

/// Lengths that a buffer hasn't: also those of stores and records for half as many function records and bytes of an id.
fn wrong_sizes(buffer: Buffer, length: usize) -> Vec<usize> {
    let half = match buffer {
        Buffer::Records => 4_228,
        Buffer::Undo => 3_968,
        Buffer::Ids => 256,
        _ => length / 2,
    };
    [0, 1, half, length - 1, length + 1, length + 31].into_iter().filter(|wrong| *wrong != length).collect()
}

/// Every call with every buffer too short, too long and empty: 22, also where it would be refused otherwise.
fn sizes(play: &mut Play) {
    let payload = plain(2, 3, 2, &[Edit::Jump(9)]);
    let (symbols, file) = (Rc::new(list_bytes(&[])), Rc::new(payload.file(&play.world)));
    let host = play.world.host;
    let action = |text: &str, command| Does::Action { name: name(text), command, time: 0 };
    let calls = [
        Does::Start { text_base: host.text_base, arena_base: host.arena_base, cpus: CPUS },
        Does::Upload { name: name("new"), symbols: symbols.clone(), file: file.clone() },
        Does::Upload { name: name("a"), symbols, file },
        Does::Get { name: name("a") },
        Does::Get { name: name("nobody") },
        Does::List { idx: 0, nr: 2, room: [16, 256, 8] },
        Does::List { idx: 0, nr: 9, room: [0; 3] },
        action("b", UNLOAD),
        action("nobody", APPLY),
        action("a", APPLY),
        Does::Report { cpu: 0 },
        Does::Tick,
        Does::Work,
        Does::TopBuildId,
    ];
    play.start(CPUS, OK);
    play.upload("a", &plain(0, 1, 0, &[Edit::Jump(64)]), OK);
    play.upload("b", &plain(1, 2, 1, &[Edit::NoOps(80, 3)]), OK);
    play.action("a", APPLY, 0, OK);
    play.report_all();
    for does in &calls {
        for buffer in does.buffers() {
            let mut call = Call::from(does.clone());
            let length = play.session.length(*buffer, &call);
            for wrong in wrong_sizes(*buffer, length) {
                let own = matches!((does, buffer), (Does::Start { .. }, Buffer::Text | Buffer::BuildId));
                if !own {
                    call.wrong = Some((*buffer, wrong));
                    play.says(call.clone(), 22);
                }
            }
        }
    }
    play.work(1, OK);
    play.get("a", 2, 0);
    play.get("b", 1, 0);
}

/// Start-up asks nothing of what the records hold, and leaves nothing of what was.
fn again(play: &mut Play) {
    for _ in 0..2 {
        play.start(65, 22);
        play.start(CPUS, OK);
        play.list(0, 8, [0, 0], &[]);
        play.upload("a", &plain(0, 1, 0, &[Edit::Jump(64)]), OK);
        play.holds("the id stands in slot 0", |memory| memory.ids.inner()[..20] == id(1));
        play.action("a", APPLY, 0, OK);
        play.report(0, OK);
    }
    play.list(0, 8, [0, 1], &[("a", 1, -11)]);
}
