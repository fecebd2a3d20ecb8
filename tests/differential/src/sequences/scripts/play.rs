//! A script under way: calls with their stated answers. The first that isn't so is the session's fault.

use crate::payloads::assemble::list_bytes;
use crate::second::refusal::in_words;
use crate::sequences::call::{Call, Does};
use crate::sequences::loader::Loader;
use crate::sequences::memory::{Answer, Memory};
use crate::sequences::plain::{Edit, Plain};
use crate::sequences::session::Session;
use crate::sequences::world::World;
use std::rc::Rc;

pub const OK: u64 = 0;

/// The host's CPUs.
pub const CPUS: u32 = 4;

pub struct Play {
    pub session: Session,
    pub world: World,
    loaders: Vec<Loader>,
}

/// A payload's name.
pub fn name(text: &str) -> Vec<u8> {
    [text.as_bytes(), &[0]].concat()
}

/// An id of 20 bytes; number 0 is the hypervisor's.
pub fn id(number: u8) -> [u8; 20] {
    let mut id = [0xb1; 20];
    id[19] = number;
    id
}

/// A payload with its own id in a slot, that depends on another id.
pub fn plain(slot: usize, own: u8, on: u8, edits: &[Edit]) -> Plain {
    Plain::new(slot, &id(own), &id(on), edits)
}

impl Play {
    pub fn new(loaders: &[Loader]) -> Play {
        let world = World::new(0xffff_82d0_8020_0000, 4_096, 0xffff_82d0_8040_0000, &id(0), CPUS);
        let session = Session::careful(loaders, &world, 0xff);
        Play { session, world, loaders: loaders.to_vec() }
    }

    /// Begins again on another host; what was reached so far stays.
    pub fn move_to(&mut self, world: World) {
        let mut session = Session::careful(&self.loaders, &world, 0);
        std::mem::swap(&mut session, &mut self.session);
        self.session.seen = session.seen;
        self.session.fault = session.fault;
        self.session.log = session.log;
        self.world = world;
    }

    pub fn fault(&mut self, words: String) {
        self.session.fault.get_or_insert(words);
    }

    /// Makes a call, whose answer is stated.
    pub fn says(&mut self, call: impl Into<Call>, stated: u64) -> Option<Answer> {
        let call = call.into();
        let words = call.to_string();
        let answer = self.session.call(call)?;
        let code = *answer.code.as_ref().ok()?;
        if code != stated {
            self.fault(format!("{words}: {}, stated: {}", in_words(code), in_words(stated)));
        }
        Some(answer)
    }

    /// Makes a call that is accepted, whose buffer is stated.
    fn answers(&mut self, does: Does, stated: &[u8]) {
        let words = Call::from(does.clone()).to_string();
        if let Some(answer) = self.says(does, OK) {
            if answer.out.inner() != stated {
                self.fault(format!("{words}: {:02x?}, stated: {stated:02x?}", answer.out.inner()));
            }
        }
    }

    pub fn start(&mut self, cpus: u32, stated: u64) {
        let host = self.world.host;
        self.says(Does::Start { text_base: host.text_base, arena_base: host.arena_base, cpus }, stated);
    }

    pub fn upload(&mut self, text: &str, payload: &Plain, stated: u64) {
        self.upload_file(name(text), payload.file(&self.world), stated);
    }

    pub fn upload_file(&mut self, name: Vec<u8>, file: Vec<u8>, stated: u64) {
        self.says(Does::Upload { name, symbols: Rc::new(list_bytes(&[])), file: Rc::new(file) }, stated);
    }

    pub fn action(&mut self, text: &str, command: u32, time: u32, stated: u64) {
        self.says(Does::Action { name: name(text), command, time }, stated);
    }

    pub fn report(&mut self, cpu: u32, stated: u64) {
        self.says(Does::Report { cpu }, stated);
    }

    pub fn report_all(&mut self) {
        (0..self.world.host.cpus).for_each(|cpu| self.report(cpu, OK));
    }

    pub fn ticks(&mut self, count: u32, stated: u64) {
        (0..count).for_each(|_| drop(self.says(Does::Tick, stated)));
    }

    pub fn work(&mut self, steps: u32, stated: u64) {
        (0..steps).for_each(|_| drop(self.says(Does::Work, stated)));
    }

    /// A job from its action to its end, in so many steps.
    pub fn job(&mut self, text: &str, command: u32, steps: u32) {
        self.action(text, command, 0, OK);
        self.report_all();
        self.work(steps, OK);
        self.work(1, 22);
    }

    /// The status and the result of a payload.
    pub fn get(&mut self, text: &str, status: u32, result: i32) {
        let stated = [status.to_le_bytes(), result.to_le_bytes()].concat();
        self.answers(Does::Get { name: name(text) }, &stated);
    }

    /// The top build-id: the hypervisor's, or one of 20 bytes in a slot's part of the id store.
    pub fn top(&mut self, slot: Option<u32>) {
        self.top_of(slot.map(|slot| (slot, 20)));
    }

    /// The top build-id: 0 and the length of the hypervisor's, or 1 and the place and the length of a slot's.
    pub fn top_of(&mut self, id: Option<(u32, u32)>) {
        let stated = id.map_or([0, 0, self.world.host.build_id_len], |(slot, length)| [1, 64 * slot, length]);
        self.answers(Does::TopBuildId, &stated.map(u32::to_le_bytes).concat());
    }

    /// A list with just enough room: entries written and left, the version, and the names, statuses and results.
    pub fn list(&mut self, idx: u32, nr: u32, [left, version]: [u32; 2], entries: &[(&str, u32, i32)]) {
        let room = [8, 128, 4].map(|size| size * nr as usize);
        let answer = match self.says(Does::List { idx, nr, room }, OK) {
            Some(answer) => answer,
            None => return,
        };
        let numbers = [entries.len() as u32, left, version].map(u32::to_le_bytes).concat();
        let mut stated = [numbers, Vec::new(), Vec::new(), Vec::new()];
        for (text, status, result) in entries {
            let mut kept = name(text);
            stated[1].extend([status.to_le_bytes(), result.to_le_bytes()].concat());
            stated[3].extend((kept.len() as u32).to_le_bytes());
            kept.resize(128, 0);
            stated[2].extend(kept);
        }
        let buffers = [&answer.out].into_iter().chain(&answer.lists);
        for (buffer, stated) in buffers.zip(&stated) {
            let is = &buffer.inner()[..stated.len()];
            if is != stated {
                self.fault(format!("list idx {idx}, nr {nr}: {is:02x?}, stated: {stated:02x?}"));
            }
        }
    }

    /// That a part of the memory is so.
    pub fn holds(&mut self, what: &str, holds: impl Fn(&Memory) -> bool) {
        if self.session.fault.is_none() && !holds(self.session.memory()) {
            self.fault(format!("after call {}: it does not hold that {what}", self.session.log.len()));
        }
    }

    /// That the text is so.
    pub fn text_is(&mut self, what: &str, text: &[u8]) {
        self.holds(&format!("the text is {what}"), |memory| memory.text.inner() == text);
    }

    /// That nothing is saved in the undo store.
    pub fn nothing_saved(&mut self) {
        self.holds("the undo store is zero", |memory| memory.undo.inner().iter().all(|byte| *byte == 0));
    }
}
