//! Payloads to upload in random sequences. They are made once for a host, with room for ids that are written into them later:
//! so each can depend on the hypervisor or on any payload before it.

use super::world::World;
use crate::damage::{damage, symbol_list, Focus};
use crate::payloads::random::{payload_within, Made};
use crate::rng::Rng;
use crate::second::limits::{ID, RECORDS};
use std::rc::Rc;

/// A payload, and where the descriptions of its notes stand in the file.
pub struct Piece {
    made: Made,
    list: Rc<Vec<u8>>,
    id: std::ops::Range<usize>,
    dependency: std::ops::Range<usize>,
}

pub struct Pool {
    /// For each slot: the first with as many records as the text has room for.
    pieces: Vec<Vec<Piece>>,
    /// Ids to choose from; the first is the hypervisor's.
    ids: Vec<Vec<u8>>,
    pub names: Vec<Vec<u8>>,
}

/// Pieces for each slot.
const PIECES: usize = 4;

const DAMAGE: [Focus; 11] = [
    Focus::Header,
    Focus::SectionTable,
    Focus::Names,
    Focus::Notes,
    Focus::Symbols,
    Focus::Relocations,
    Focus::Relocations,
    Focus::Records,
    Focus::Anywhere,
    Focus::Length,
    Focus::Splice,
];

impl Pool {
    pub fn new(world: &World, rng: &mut Rng) -> Pool {
        let length = world.build_id.len();
        let mut ids = vec![world.build_id.clone()];
        while ids.len() < 12 {
            let mut id = rng.bytes(length);
            if rng.one_in(2) {
                id = world.build_id.clone();
                id[rng.index(length)] = rng.byte();
            }
            ids.push(id);
        }
        let slot = |slot| (0..PIECES).map(|number| Piece::new(world, slot, number, rng)).collect();
        let pieces = (0..8).map(slot).collect();
        Pool { pieces, ids, names: names(rng) }
    }

    /// An id to write into a payload.
    pub fn id(&self, rng: &mut Rng) -> &[u8] {
        &self.ids[rng.index(self.ids.len())]
    }

    /// A payload for a slot; a large one has as many records as the text has room for.
    pub fn piece(&self, slot: usize, large: bool, rng: &mut Rng) -> &Piece {
        let number = if large { 0 } else { rng.index(PIECES) };
        &self.pieces[slot][number]
    }

    /// The list and the file of a damaged payload for a slot.
    pub fn damaged(&self, slot: usize, rng: &mut Rng) -> (Rc<Vec<u8>>, Rc<Vec<u8>>) {
        let piece = self.piece(slot, false, rng);
        if rng.one_in(5) {
            let mut list = piece.made.input.list.clone();
            symbol_list(&mut list, rng);
            return (Rc::new(list), Rc::new(piece.made.input.file.clone()));
        }
        let spare = self.piece(rng.index(8), false, rng);
        let input = damage(&piece.made, &spare.made, rng.pick(&DAMAGE), rng);
        (piece.list.clone(), Rc::new(input.file))
    }
}

/// Names of payloads, of all lengths that a name may have.
fn names(rng: &mut Rng) -> Vec<Vec<u8>> {
    let mut names: Vec<Vec<u8>> = Vec::new();
    while names.len() < 14 {
        let length = rng.pick(&[1, 2, 2, 7, 20, 126, 127]);
        let name: Vec<u8> = (0..length).map(|_| rng.between(1, 255) as u8).chain([0]).collect();
        if !names.contains(&name) {
            names.push(name);
        }
    }
    names
}

impl Piece {
    fn new(world: &World, slot: usize, number: usize, rng: &mut Rng) -> Piece {
        let same = world.build_id.len() as u64;
        let other = rng.between(1, ID as u64);
        let notes = match number {
            3 => [rng.pick(&[same, other]), other],
            _ => [same, same],
        };
        let records = if number == 0 { RECORDS as u64 } else { rng.between(1, 4) };
        let made = payload_within(world.host.around(slot), records, notes, rng);
        let described = |role: &str, length: u64| {
            let (offset, _) = made.assembled.spans[made.assembled.index(role)];
            offset + 16..offset + 16 + length as usize
        };
        let (dependency, id) = (described("depends", notes[0]), described("build_id", notes[1]));
        Piece { list: Rc::new(made.input.list.clone()), id, dependency, made }
    }

    pub fn list(&self) -> Rc<Vec<u8>> {
        self.list.clone()
    }

    /// The file with these ids, as much of them as it has room for, then more of the same.
    pub fn file(&self, id: &[u8], dependency: &[u8]) -> Rc<Vec<u8>> {
        let mut file = self.made.input.file.clone();
        for (part, bytes) in [(&self.id, id), (&self.dependency, dependency)] {
            file[part.clone()].iter_mut().zip(bytes.iter().cycle()).for_each(|(to, from)| *to = *from);
        }
        Rc::new(file)
    }
}
