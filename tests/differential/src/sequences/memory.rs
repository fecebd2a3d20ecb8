//! The memory that a host lends a loader, and the buffers of one answer.

use super::world::World;
use crate::second::calls::codec::SIZE;
use crate::second::limits::{ARENA, IDS, UNDO};
use crate::surrounded::{first_difference, pattern, Surrounded};

/// The list's three buffers: statuses, names, lengths.
pub type Lists = [Surrounded; 3];

#[derive(Clone)]
pub struct Memory {
    pub records: Surrounded,
    pub text: Surrounded,
    pub arena: Surrounded,
    pub undo: Surrounded,
    pub ids: Surrounded,
    pub build_id: Surrounded,
    /// What stands around the bytes that a call gets.
    pub fill: u8,
}

impl Memory {
    /// The memory before start-up: what start-up must not depend on holds a pattern.
    pub fn new(world: &World, fill: u8) -> Memory {
        let of_size = |size| Surrounded::new(&pattern(size), fill);
        Memory {
            records: of_size(SIZE),
            text: Surrounded::new(&world.text, fill),
            arena: of_size(ARENA),
            undo: of_size(UNDO),
            ids: of_size(IDS),
            build_id: Surrounded::new(&world.build_id, fill),
            fill,
        }
    }

    fn parts(&self) -> [(&'static str, &Surrounded); 6] {
        [
            ("records", &self.records),
            ("text", &self.text),
            ("arena", &self.arena),
            ("undo store", &self.undo),
            ("id store", &self.ids),
            ("build-id", &self.build_id),
        ]
    }

    /// The first byte in which the memory differs from another.
    pub fn differs(&self, other: &Memory) -> Option<String> {
        let pairs = self.parts().into_iter().zip(other.parts());
        differs(pairs.map(|((name, a), (_, b))| (name, a, b)))
    }

    /// The first part beside which a byte was written.
    pub fn strayed(&self) -> Option<&'static str> {
        self.parts().into_iter().find(|(_, part)| part.strayed()).map(|(name, _)| name)
    }
}

/// The first byte in which a pair of buffers differs.
pub fn differs<'a>(pairs: impl Iterator<Item = (&'static str, &'a Surrounded, &'a Surrounded)>) -> Option<String> {
    let mut found = pairs.filter_map(|(name, a, b)| first_difference(a.inner(), b.inner()).map(|found| (name, found)));
    found.next().map(|(name, (at, [a, b]))| format!("{name}, first at offset {at}: {a} and {b}"))
}

/// One call's answer: its number, or what the loader said when it panicked, and the buffers.
pub struct Answer {
    pub code: Result<u64, String>,
    pub out: Surrounded,
    pub lists: Lists,
}

impl Answer {
    /// The first byte in which the buffers differ from another's.
    pub fn differs(&self, other: &Answer) -> Option<String> {
        let own = [&self.out].into_iter().chain(&self.lists);
        let others = [&other.out].into_iter().chain(&other.lists);
        let names = ["out", "statuses", "names", "lengths"].into_iter();
        differs(names.zip(own.zip(others)).map(|(name, (a, b))| (name, a, b)))
    }

    pub fn strayed(&self) -> bool {
        self.out.strayed() || self.lists.iter().any(Surrounded::strayed)
    }
}
