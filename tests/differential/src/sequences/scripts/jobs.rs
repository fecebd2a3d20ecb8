//! Jobs: from the action to the last step, time-outs, what is refused while one stands.

use super::play::{plain, Play, CPUS, OK};
use super::Scripts;
use crate::second::calls::state::{APPLY, REPLACE, REVERT, UNLOAD};
use crate::sequences::call::Does;
use crate::sequences::plain::{lay, Edit};
use crate::sequences::world::World;

pub const SCRIPTS: Scripts = &[
    ("a job from its action to its end", end_to_end),
    ("time-outs", time_outs),
    ("a time-out with 63 of 64 CPUs held", almost_all),
    ("edits at both ends of the largest text", largest_text),
    ("what needs a job, without one", no_job),
    ("a job that stands is in the way", busy),
];

const EDITS: [Edit; 3] = [Edit::Jump(64), Edit::NoOps(0, 31), Edit::NoOps(4_095, 1)];

/// One edit for each step, in order; off again the last first.
fn end_to_end(play: &mut Play) {
    let payload = plain(0, 1, 0, &EDITS);
    let writes = payload.writes(&play.world);
    let bare = play.world.text.clone();
    play.start(CPUS, OK);
    play.upload("p", &payload, OK);
    play.get("p", 1, 0);
    play.action("p", APPLY, 7, OK);
    play.get("p", 1, -11);
    for cpu in 0..CPUS {
        play.work(1, 16);
        play.text_is("that at start-up", &bare);
        play.report(cpu, OK);
    }
    for steps in 1..=3 {
        play.work(1, OK);
        let mut text = bare.clone();
        lay(&mut text, &writes[..steps]);
        play.text_is("that with so many edits as steps", &text);
    }
    play.get("p", 2, 0);
    play.top(Some(0));
    play.action("p", REVERT, 7, OK);
    play.get("p", 2, -11);
    play.report_all();
    for left in [2, 1, 0] {
        play.ticks(10, OK);
        play.work(1, OK);
        let mut text = bare.clone();
        lay(&mut text, &writes[..left]);
        play.text_is("that with so many edits as are left", &text);
    }
    play.get("p", 1, 0);
    play.top(None);
    play.nothing_saved();
}

fn time_outs(play: &mut Play) {
    play.start(CPUS, OK);
    play.upload("p", &plain(0, 1, 0, &EDITS), OK);
    for (time, ticks, held) in [(0, 30, 0), (1, 1, 0), (5, 5, 1), (2, 2, 3), (40, 40, 2)] {
        play.action("p", APPLY, time, OK);
        (0..held).for_each(|cpu| play.report(cpu, OK));
        play.ticks(ticks - 1, OK);
        play.get("p", 1, -11);
        play.ticks(1, OK);
        play.get("p", 1, -16);
        play.ticks(1, 22);
        play.report(0, 22);
    }
    let bare = play.world.text.clone();
    play.text_is("that at start-up", &bare);
    // the CPUs that were held are free again, and a complete rendezvous has no end in time
    play.action("p", APPLY, 1, OK);
    (0..CPUS - 1).for_each(|cpu| play.report(cpu, OK));
    play.work(1, 16);
    play.report(CPUS - 1, OK);
    play.ticks(5, OK);
    play.work(3, OK);
    play.action("p", REVERT, 1, OK);
    play.ticks(1, OK);
    play.get("p", 2, -16);
    play.top(Some(0));
}

fn almost_all(play: &mut Play) {
    let world = play.world.clone();
    let host = world.host;
    play.move_to(World::new(host.text_base, host.text_len, host.arena_base, &world.build_id, 64));
    play.start(64, OK);
    play.upload("p", &plain(0, 1, 0, &EDITS), OK);
    play.action("p", REPLACE, 2, OK);
    (0..64).filter(|cpu| *cpu != 17).for_each(|cpu| play.report(cpu, OK));
    play.ticks(1, OK);
    play.work(1, 16);
    play.ticks(1, OK);
    play.get("p", 1, -16);
    play.report(17, 22);
    play.job("p", REPLACE, 3);
}

fn largest_text(play: &mut Play) {
    let world = play.world.clone();
    let (host, most) = (world.host, 1 << 24);
    play.move_to(World::new(host.text_base - most, most, host.arena_base, &world.build_id, CPUS));
    let payload = plain(0, 1, 0, &[Edit::NoOps(most - 31, 31), Edit::Jump(most - 36), Edit::Jump(0)]);
    let mut text = play.world.text.clone();
    play.start(CPUS, OK);
    play.upload("p", &payload, OK);
    play.job("p", APPLY, 3);
    lay(&mut text, &payload.writes(&play.world));
    play.text_is("that with the payload", &text);
    play.job("p", REVERT, 3);
    let bare = play.world.text.clone();
    play.text_is("that at start-up", &bare);
}

fn no_job(play: &mut Play) {
    play.start(CPUS, OK);
    play.ticks(1, 22);
    play.work(1, 22);
    play.report(0, 22);
    play.upload("p", &plain(0, 1, 0, &EDITS), OK);
    play.work(1, 22);
    play.action("p", APPLY, 3, OK);
    [CPUS, CPUS + 1, 63, 64, u32::MAX].iter().for_each(|cpu| play.report(*cpu, 22));
    [2, 2, 2].iter().for_each(|cpu| play.report(*cpu, OK));
    play.work(1, 16);
    play.ticks(2, OK);
    play.get("p", 1, -11);
    play.ticks(1, OK);
    play.get("p", 1, -16);
}

fn busy(play: &mut Play) {
    play.start(CPUS, OK);
    play.upload("p", &plain(0, 1, 0, &EDITS), OK);
    play.upload("q", &plain(1, 2, 1, &EDITS), OK);
    play.upload("r", &plain(2, 3, 7, &EDITS), OK);
    play.job("p", APPLY, 3);
    play.action("q", APPLY, 0, OK);
    let everything = |play: &mut Play| {
        for command in [REVERT, APPLY, REPLACE] {
            ["p", "q", "r"].iter().for_each(|name| play.action(name, command, 0, 16));
        }
        play.action("q", UNLOAD, 0, 16);
        // the command is looked at before the job, and the name before both
        play.action("q", 0, 0, 22);
        play.action("q", 5, 0, 22);
        play.action("nobody", 5, 0, 2);
        play.get("q", 1, -11);
        play.get("p", 2, 0);
        play.get("r", 1, 0);
    };
    everything(play);
    play.report_all();
    everything(play);
    play.work(1, OK);
    everything(play);
    // another payload's unload is not in the job's way: a wrong status is
    play.action("p", UNLOAD, 0, 22);
    play.get("p", 2, -22);
    play.action("r", UNLOAD, 0, OK);
    play.says(Does::Get { name: b"r\0".to_vec() }, 2);
    play.work(2, OK);
    play.get("q", 2, 0);
}
