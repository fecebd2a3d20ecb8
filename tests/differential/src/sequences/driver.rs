//! A random sequence of calls: most of them further what stands, some of them nonsense, some with forged records or with a
//! buffer of a wrong size.

use super::call::{Buffer, Call, Does};
use super::forge;
use super::loader::Loader;
use super::pool::Pool;
use super::session::Session;
use super::world::{cpus, World};
use crate::rng::Rng;

/// What a sequence is after.
#[derive(Clone, Copy, PartialEq, Eq, Debug)]
pub enum Mood {
    /// Anything.
    Mixed,
    /// High stacks.
    Climb,
    /// High stacks of payloads with many records, and a replace over them.
    Full,
}

/// A host and its payloads, for some sequences.
pub struct Ground {
    pub world: World,
    pub pool: Pool,
}

impl Ground {
    pub fn new(rng: &mut Rng) -> Ground {
        let world = World::random(rng);
        let pool = Pool::new(&world, rng);
        Ground { world, pool }
    }
}

/// One sequence under way.
pub struct Driver<'g> {
    pub ground: &'g Ground,
    pub session: Session,
    pub rng: Rng,
    pub mood: Mood,
    cpus: u32,
}

impl<'g> Driver<'g> {
    pub fn new(ground: &'g Ground, loaders: &[Loader], seed: u64) -> Driver<'g> {
        let mut rng = Rng::new(seed);
        let mood = match rng.below(100) {
            0..=1 => Mood::Full,
            2..=21 => Mood::Climb,
            _ => Mood::Mixed,
        };
        let fill = rng.pick(&[0, 0xff]);
        let cpus = if mood == Mood::Full { rng.between(1, 2) as u32 } else { cpus(&mut rng) };
        let session = Session::new(loaders, &ground.world, fill);
        Driver { ground, session, rng, mood, cpus }
    }

    /// Runs the sequence.
    pub fn run(&mut self) {
        for _ in 0..self.begin() {
            self.turn();
        }
    }

    /// Start-up; how many turns are to follow.
    pub fn begin(&mut self) -> u64 {
        if self.rng.one_in(20) {
            self.stray_start();
        }
        let host = &self.ground.world.host;
        self.call(Does::Start { text_base: host.text_base, arena_base: host.arena_base, cpus: self.cpus });
        match self.mood {
            Mood::Mixed => self.rng.between(10, 60),
            Mood::Climb => self.rng.between(40, 200),
            Mood::Full => 640,
        }
    }

    /// One call, or some with forged memory. After a fault nothing is done any more.
    pub fn turn(&mut self) {
        let full = self.mood == Mood::Full;
        match self.rng.below(if full { 1_000 } else { 100 }) {
            0..=7 => self.forged(),
            8..=11 => self.wrong_size(),
            12..=25 => {
                let does = self.nonsense();
                self.call(does);
            }
            _ => {
                let does = self.intent();
                self.call(does);
            }
        }
    }

    fn call(&mut self, call: impl Into<Call>) {
        self.session.call(call);
    }

    /// Calls with forged memory, then all as before.
    fn forged(&mut self) {
        let state = match &self.session.state {
            Some(state) => state,
            None => return,
        };
        let writes = match self.rng.below(8) {
            0 => Vec::new(),
            _ => forge::changes(self.session.memory().records.inner(), state, &mut self.rng),
        };
        let scribble = (writes.is_empty() || self.rng.one_in(8)).then(|| self.rng.number());
        self.session.forge(|memory| {
            forge::write(memory.records.inner_mut(), &writes);
            scribble.iter().for_each(|seed| forge::scribble(memory, &mut Rng::new(*seed)));
        });
        for _ in 0..self.rng.pick(&[1, 1, 2, 4]) {
            let any = self.rng.one_in(3) || self.session.state.is_none();
            let does = if any { self.nonsense() } else { self.intent() };
            self.call(does);
        }
        self.session.restore();
    }

    /// A call with one buffer of a wrong size.
    fn wrong_size(&mut self) {
        let does = if self.rng.one_in(2) { self.nonsense() } else { self.intent() };
        let buffer = self.rng.pick(does.buffers());
        let mut call = Call::from(does);
        let length = self.session.length(buffer, &call);
        let any = self.rng.index(length + 1);
        let wrong = self.rng.pick(&[0, length.saturating_sub(1), length + 1, length + 8, any]);
        // records of start-up aside, a text or a build-id of another length is one that start-up may take
        if wrong != length {
            call.wrong = Some((buffer, wrong));
            self.call(call);
        }
    }

    /// A start-up with other numbers, before the one that counts.
    fn stray_start(&mut self) {
        let host = self.ground.world.host;
        let any = self.rng.number();
        let text_base = self.rng.pick(&[host.text_base, host.text_base, host.arena_base, any]);
        let arena_base = self.rng.pick(&[host.arena_base, host.text_base & !4_095, 0, any, any & !4_095]);
        let cpus = self.rng.pick(&[0, 1, 64, 65, u32::MAX]);
        let mut call = Call::from(Does::Start { text_base, arena_base, cpus });
        let buffer =
            self.rng.pick(&[Buffer::Records, Buffer::Text, Buffer::Arena, Buffer::Undo, Buffer::Ids, Buffer::BuildId]);
        if self.rng.one_in(2) {
            let length = self.session.length(buffer, &call);
            call.wrong = Some((buffer, self.rng.pick(&[0, length - 1, length + 1])));
        }
        self.call(call);
    }
}
