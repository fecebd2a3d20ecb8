//! Calls over a host's memory: those that lead to where the timed ones begin, and these. Both loaders make them, each on
//! memory of its own.

use crate::library::{library, records_size};
use crate::timing::{in_turn, Timed, Times};
use differential::second::limits::{ARENA, IDS, UNDO};
use differential::second::refusal::in_words;
use differential::sequences::loader::second;
use differential::sequences::{Does, Loader, Session, World};
use std::rc::Rc;

/// The sizes of arena, undo store and id store.
const SIZES: [usize; 3] = [ARENA, UNDO, IDS];
/// The sizes of the list's buffers for eight payloads.
pub const ROOM: [usize; 3] = [64, 1_024, 32];

#[derive(Clone)]
pub struct Case {
    pub world: Rc<World>,
    pub setup: Vec<Does>,
    /// What one round times.
    pub calls: Vec<Does>,
}

/// What a host lends, and the buffers of answers.
#[derive(Clone, PartialEq, Eq)]
pub struct Memory {
    pub records: Vec<u8>,
    pub text: Vec<u8>,
    pub undo: Vec<u8>,
    arena: Vec<u8>,
    ids: Vec<u8>,
    build_id: Vec<u8>,
    out: [u8; 12],
    lists: [Vec<u8>; 3],
}

impl Memory {
    fn new(world: &World) -> Memory {
        let records = vec![0; records_size() as usize];
        let [arena, undo, ids] = SIZES.map(|size| vec![0; size]);
        let (text, build_id) = (world.text.clone(), world.build_id.clone());
        Memory { records, text, undo, arena, ids, build_id, out: [0; 12], lists: ROOM.map(|size| vec![0; size]) }
    }

    /// Makes a call, with nothing copied for it.
    fn make(&mut self, loader: &Loader, does: &Does) -> u64 {
        let Memory { records, text, undo, arena, ids, build_id, out, lists: [statuses, names, lengths] } = self;
        match does {
            Does::Start { text_base, arena_base, cpus } => {
                (loader.start)(records, text, *text_base, arena, *arena_base, undo, ids, build_id, *cpus)
            }
            Does::Upload { name, symbols, file } => (loader.upload)(records, arena, ids, name, symbols, file),
            Does::Get { name } => (loader.get)(records, name, &mut out[..8]),
            Does::List { idx, nr, .. } => (loader.list)(records, *idx, *nr, statuses, names, lengths, out),
            Does::Action { name, command, time } => {
                (loader.action)(records, arena, undo, ids, build_id, name, *command, *time)
            }
            Does::Report { cpu } => (loader.report)(records, *cpu),
            Does::Tick => (loader.tick)(records),
            Does::Work => (loader.work)(records, text, undo),
            Does::TopBuildId => (loader.top_build_id)(records, build_id, ids, out),
        }
    }
}

/// One loader and its memory, which is put back between rounds, outside the time.
pub struct Side<'a> {
    loader: Loader,
    calls: &'a [Does],
    /// Whether the calls write the text.
    works: bool,
    kept: Memory,
    pub memory: Memory,
}

impl Timed for Side<'_> {
    fn before(&mut self) {
        let (memory, kept) = (&mut self.memory, &self.kept);
        if self.works {
            memory.text.copy_from_slice(&kept.text);
        }
        memory.arena.copy_from_slice(&kept.arena);
        memory.undo.copy_from_slice(&kept.undo);
        memory.ids.copy_from_slice(&kept.ids);
        memory.records.copy_from_slice(&kept.records);
    }

    fn run(&mut self) -> u64 {
        self.calls.iter().fold(0, |all, does| all | self.memory.make(&self.loader, does))
    }
}

impl Case {
    /// Makes all calls once by both loaders. Each must be accepted, and leave both with the same answers and memory.
    pub fn agree(&self) -> Result<(), String> {
        let mut session = Session::new(&[library(), second()], &self.world, 0xa5);
        for does in self.setup.iter().chain(&self.calls) {
            let answer = session.call(does.clone());
            if let Some(fault) = &session.fault {
                return Err(fault.clone());
            }
            let code = answer.map_or(Ok(0), |answer| answer.code)?;
            if code != 0 {
                return Err(format!("{}: {}; it should be accepted", does.name(), in_words(code)));
            }
        }
        Ok(())
    }

    /// The library and the second loader, where the timed calls begin.
    pub fn sides(&self) -> Result<[Side<'_>; 2], String> {
        let side = |loader: Loader| {
            let mut memory = Memory::new(&self.world);
            let refused = self.setup.iter().find(|does| memory.make(&loader, does) != 0);
            let works = self.calls.iter().any(|does| matches!(does, Does::Work));
            match refused {
                Some(does) => Err(format!("the {} refuses {}", loader.name, does.name())),
                None => Ok(Side { loader, calls: &self.calls, works, kept: memory.clone(), memory }),
            }
        };
        Ok([side(library())?, side(second())?])
    }

    /// The times of the calls, and whether the last round too left both with the same memory.
    pub fn times(&self, rounds: usize) -> Result<[Times; 2], String> {
        self.agree()?;
        let [mut a, mut b] = self.sides()?;
        let times = in_turn(rounds, [&mut a, &mut b]);
        if a.memory != b.memory {
            return Err("after the last round the memory differs".to_string());
        }
        Ok(times)
    }
}
