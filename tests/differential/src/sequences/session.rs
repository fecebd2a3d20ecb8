//! Calls put to one loader or to several side by side, each with its own memory. After every call the answers, the answers'
//! buffers and all memory are compared; the first difference is kept and ends the session.

use super::answers::Answers;
use super::call::{Buffer, Call};
use super::loader::Loader;
use super::marks::{Marks, FORGED_ACCEPTED, FORGED_REFUSED};
use super::memory::{Answer, Memory};
use super::world::World;
use crate::second::calls::codec::payload_at;
use crate::second::calls::state::State;
use crate::second::calls::state_of;
use crate::second::refusal::in_words;
use crate::surrounded::{pattern, Surrounded};
use std::any::Any;
use std::panic::{catch_unwind, AssertUnwindSafe};

struct Side {
    loader: Loader,
    memory: Memory,
}

impl Side {
    fn make(&mut self, call: &Call) -> Answer {
        let fill = self.memory.fill;
        let mut out = Surrounded::new(&pattern(call.does.out()), fill);
        let mut lists = call.does.room().map(|length| Surrounded::new(&pattern(length), fill));
        let (loader, memory) = (&self.loader, &mut self.memory);
        let made = catch_unwind(AssertUnwindSafe(|| call.make(loader, memory, &mut out, &mut lists)));
        Answer { code: made.map_err(panicked), out, lists }
    }
}

/// What was said in a panic.
pub fn panicked(panic: Box<dyn Any + Send>) -> String {
    let words = panic.downcast_ref::<String>().cloned();
    words.or_else(|| panic.downcast_ref::<&str>().map(|text| text.to_string())).unwrap_or_default()
}

/// What sessions have reached.
#[derive(Clone, Default)]
pub struct Seen {
    pub answers: Answers,
    pub marks: Marks,
}

impl Seen {
    pub fn join(&mut self, other: &Seen) {
        self.answers.join(&other.answers);
        self.marks.join(&other.marks);
    }
}

pub struct Session {
    sides: Vec<Side>,
    /// The state that the last loader's records are; none where they are none in range.
    pub state: Option<State>,
    /// All calls so far, and whether each was made with forged memory.
    pub log: Vec<(Call, bool)>,
    pub fault: Option<String>,
    pub seen: Seen,
    /// The memory before it was changed, while it is.
    kept: Option<Vec<Memory>>,
    /// The slots that unloads have freed.
    freed: [bool; 8],
    /// Whether a refusal is held against a copy of the memory before it.
    careful: bool,
}

impl Session {
    /// A session of these loaders over a host's memory, with some byte around all that a call gets.
    pub fn new(loaders: &[Loader], world: &World, fill: u8) -> Session {
        let side = |loader: &Loader| Side { loader: *loader, memory: Memory::new(world, fill) };
        Session {
            sides: loaders.iter().map(side).collect(),
            state: None,
            log: Vec::new(),
            fault: None,
            seen: Seen::default(),
            kept: None,
            freed: [false; 8],
            careful: false,
        }
    }

    /// The same, where it is also looked at what refusals leave.
    pub fn careful(loaders: &[Loader], world: &World, fill: u8) -> Session {
        Session { careful: true, ..Session::new(loaders, world, fill) }
    }

    /// The memory of the first loader.
    pub fn memory(&self) -> &Memory {
        &self.sides[0].memory
    }

    /// Makes a call; the first loader's answer. After a fault nothing is done any more.
    pub fn call(&mut self, call: impl Into<Call>) -> Option<Answer> {
        if self.fault.is_some() {
            return None;
        }
        let call = call.into();
        let before = if self.careful { Some(self.sides[0].memory.clone()) } else { None };
        let mut answers: Vec<Answer> = self.sides.iter_mut().map(|side| side.make(&call)).collect();
        let fault = self.differ(&answers).or_else(|| self.strayed(&answers));
        let first = answers.swap_remove(0);
        let code = *first.code.as_ref().unwrap_or(&0);
        let fault = fault.or_else(|| before.and_then(|before| self.changed(&call, code, &before)));
        if let Some(fault) = fault {
            self.fault = Some(format!("{call}: {fault}"));
        }
        let state = state_of(self.sides[self.sides.len() - 1].memory.records.inner());
        self.observe(&call, code, state);
        self.log.push((call, self.kept.is_some()));
        Some(first)
    }

    fn observe(&mut self, call: &Call, code: u64, state: Option<State>) {
        if self.kept.is_some() {
            let in_range = self.state.is_some();
            if code == 0 || !in_range {
                self.seen.marks.add(if in_range { FORGED_ACCEPTED } else { FORGED_REFUSED });
            }
        } else {
            self.seen.answers.add(call.does.name(), code);
            if let (Some(before), Some(after), None) = (&self.state, &state, call.wrong) {
                self.seen.marks.observe(&call.does, code & 0xff, before, after, &mut self.freed);
            }
        }
        self.state = state;
    }

    /// How two loaders differ, in words.
    fn differ(&self, answers: &[Answer]) -> Option<String> {
        for (side, answer) in self.sides.iter().zip(answers) {
            if let Err(words) = &answer.code {
                return Some(format!("the {} panicked: {words}", side.loader.name));
            }
        }
        let code = |answer: &Answer| *answer.code.as_ref().unwrap_or(&0);
        let answered = || in_words(code(&answers[0]));
        for (a, b) in (1..answers.len()).map(|b| (b - 1, b)) {
            let names = format!("{} and {}", self.sides[a].loader.name, self.sides[b].loader.name);
            if code(&answers[a]) != code(&answers[b]) {
                let [a, b] = [a, b].map(|side| in_words(code(&answers[side])));
                return Some(format!("{names} answer {a} and {b}"));
            }
            let buffers = answers[a].differs(&answers[b]);
            if let Some(difference) = buffers.or_else(|| self.sides[a].memory.differs(&self.sides[b].memory)) {
                return Some(format!("({}) {names} differ in {difference}", answered()));
            }
        }
        None
    }

    fn strayed(&self, answers: &[Answer]) -> Option<String> {
        for (side, answer) in self.sides.iter().zip(answers) {
            let beside = side.memory.strayed().or_else(|| answer.strayed().then_some("answer"));
            if let Some(part) = beside {
                return Some(format!("the {} wrote beside the {part}", side.loader.name));
            }
        }
        None
    }

    /// What a refusal changed that it must not: all but the result of a payload, which an action may set.
    fn changed(&self, call: &Call, code: u64, before: &Memory) -> Option<String> {
        if code == 0 {
            return None;
        }
        let mut after = self.sides[0].memory.clone();
        if call.does.name() == "action" && self.state.is_some() {
            for place in 0..8 {
                let result = payload_at(place) + 140..payload_at(place) + 144;
                after.records.inner_mut()[result.clone()].copy_from_slice(&before.records.inner()[result]);
            }
        }
        before.differs(&after).map(|difference| format!("({}) changed the {difference}", in_words(code)))
    }

    /// Changes the memory of all loaders, until it is restored: forged records, or other bytes that no call wrote.
    pub fn forge(&mut self, change: impl Fn(&mut Memory)) {
        if self.kept.is_none() {
            self.kept = Some(self.sides.iter().map(|side| side.memory.clone()).collect());
        }
        self.sides.iter_mut().for_each(|side| change(&mut side.memory));
        self.state = state_of(self.sides[0].memory.records.inner());
    }

    /// Gives all loaders their memory back as it was before.
    pub fn restore(&mut self) {
        for (side, memory) in self.sides.iter_mut().zip(self.kept.take().into_iter().flatten()) {
            side.memory = memory;
        }
        self.state = state_of(self.sides[0].memory.records.inner());
    }

    /// The length of a buffer as a call is to be given it.
    pub fn length(&self, buffer: Buffer, call: &Call) -> usize {
        let memory = self.memory();
        match buffer {
            Buffer::Records => memory.records.inner().len(),
            Buffer::Text => memory.text.inner().len(),
            Buffer::Arena => memory.arena.inner().len(),
            Buffer::Undo => memory.undo.inner().len(),
            Buffer::Ids => memory.ids.inner().len(),
            Buffer::BuildId => memory.build_id.inner().len(),
            Buffer::Out => call.does.out(),
        }
    }
}
