//! One call: what it is given besides the host's memory, and how it is made.

use super::loader::Loader;
use super::memory::{Lists, Memory};
use crate::surrounded::Surrounded;
use std::fmt;
use std::rc::Rc;

/// A buffer that a call can be given with a wrong length.
#[derive(Clone, Copy, PartialEq, Eq, Debug)]
pub enum Buffer {
    Records,
    Text,
    Arena,
    Undo,
    Ids,
    BuildId,
    Out,
}

/// The calls, with all that they are given by themselves.
#[derive(Clone)]
pub enum Does {
    Start {
        text_base: u64,
        arena_base: u64,
        cpus: u32,
    },
    Upload {
        name: Vec<u8>,
        symbols: Rc<Vec<u8>>,
        file: Rc<Vec<u8>>,
    },
    Get {
        name: Vec<u8>,
    },
    /// With buffers of these lengths.
    List {
        idx: u32,
        nr: u32,
        room: [usize; 3],
    },
    Action {
        name: Vec<u8>,
        command: u32,
        time: u32,
    },
    Report {
        cpu: u32,
    },
    Tick,
    Work,
    TopBuildId,
}

#[derive(Clone)]
pub struct Call {
    pub does: Does,
    /// A buffer and the length that it is given with, if that isn't its own.
    pub wrong: Option<(Buffer, usize)>,
}

impl From<Does> for Call {
    fn from(does: Does) -> Call {
        Call { does, wrong: None }
    }
}

/// All calls by name.
pub const NAMES: [&str; 9] = ["start", "upload", "get", "list", "action", "report", "tick", "work", "top_build_id"];

impl Does {
    pub fn name(&self) -> &'static str {
        let number = match self {
            Does::Start { .. } => 0,
            Does::Upload { .. } => 1,
            Does::Get { .. } => 2,
            Does::List { .. } => 3,
            Does::Action { .. } => 4,
            Does::Report { .. } => 5,
            Does::Tick => 6,
            Does::Work => 7,
            Does::TopBuildId => 8,
        };
        NAMES[number]
    }

    /// The buffers that the call is given.
    pub fn buffers(&self) -> &'static [Buffer] {
        use Buffer::*;
        match self {
            Does::Start { .. } => &[Records, Text, Arena, Undo, Ids, BuildId],
            Does::Upload { .. } => &[Records, Arena, Ids],
            Does::Get { .. } | Does::List { .. } => &[Records, Out],
            Does::Action { .. } => &[Records, Arena, Undo, Ids, BuildId],
            Does::Report { .. } | Does::Tick => &[Records],
            Does::Work => &[Records, Text, Undo],
            Does::TopBuildId => &[Records, BuildId, Ids, Out],
        }
    }

    /// How many bytes the call's answer takes besides its number.
    pub fn out(&self) -> usize {
        match self {
            Does::Get { .. } => 8,
            Does::List { .. } | Does::TopBuildId => 12,
            _ => 0,
        }
    }

    pub fn room(&self) -> [usize; 3] {
        match self {
            Does::List { room, .. } => *room,
            _ => [0; 3],
        }
    }
}

impl Call {
    /// Makes the call. What is only read is given as a copy with other bytes around it.
    pub fn make(&self, loader: &Loader, memory: &mut Memory, out: &mut Surrounded, lists: &mut Lists) -> u64 {
        let length = |buffer| self.wrong.filter(|(wrong, _)| *wrong == buffer).map(|(_, length)| length);
        let given = |bytes: &[u8]| Surrounded::new(bytes, memory.fill);
        let records = memory.records.lent(length(Buffer::Records));
        let text = memory.text.lent(length(Buffer::Text));
        let arena = memory.arena.lent(length(Buffer::Arena));
        let undo = memory.undo.lent(length(Buffer::Undo));
        let ids = memory.ids.lent(length(Buffer::Ids));
        let build_id = memory.build_id.lent(length(Buffer::BuildId));
        let out = out.lent(length(Buffer::Out));
        let [statuses, names, lengths] = lists;
        match &self.does {
            Does::Start { text_base, arena_base, cpus } => {
                (loader.start)(records, text, *text_base, arena, *arena_base, undo, ids, build_id, *cpus)
            }
            Does::Upload { name, symbols, file } => {
                let [name, symbols, file] = [name, &**symbols, &**file].map(|bytes| given(bytes));
                (loader.upload)(records, arena, ids, name.inner(), symbols.inner(), file.inner())
            }
            Does::Get { name } => (loader.get)(records, given(name).inner(), out),
            Does::List { idx, nr, .. } => {
                (loader.list)(records, *idx, *nr, statuses.inner_mut(), names.inner_mut(), lengths.inner_mut(), out)
            }
            Does::Action { name, command, time } => {
                (loader.action)(records, arena, undo, ids, build_id, given(name).inner(), *command, *time)
            }
            Does::Report { cpu } => (loader.report)(records, *cpu),
            Does::Tick => (loader.tick)(records),
            Does::Work => (loader.work)(records, text, undo),
            Does::TopBuildId => (loader.top_build_id)(records, build_id, ids, out),
        }
    }
}

impl fmt::Display for Call {
    fn fmt(&self, f: &mut fmt::Formatter<'_>) -> fmt::Result {
        let shown = |name: &[u8]| format!("\"{}\"", name.escape_ascii());
        write!(f, "{}", self.does.name())?;
        match &self.does {
            Does::Start { text_base, arena_base, cpus } => {
                write!(f, " text_base {text_base:#x}, arena_base {arena_base:#x}, {cpus} CPUs")?
            }
            Does::Upload { name, symbols, file } => {
                write!(f, " {}, list of {} bytes, file of {} bytes", shown(name), symbols.len(), file.len())?
            }
            Does::Get { name } => write!(f, " {}", shown(name))?,
            Does::List { idx, nr, room } => write!(f, " idx {idx}, nr {nr}, buffers of {room:?} bytes")?,
            Does::Action { name, command, time } => write!(f, " {}, command {command}, time {time}", shown(name))?,
            Does::Report { cpu } => write!(f, " CPU {cpu}")?,
            Does::Tick | Does::Work | Does::TopBuildId => (),
        }
        match self.wrong {
            Some((buffer, length)) => write!(f, " ({buffer:?} given with {length} bytes)"),
            None => Ok(()),
        }
    }
}
