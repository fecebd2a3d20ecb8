//! The next call of a random sequence where it is to further what stands.

use super::call::Does;
use super::driver::{Driver, Mood};
use crate::second::calls::state::{State, APPLIED, APPLY, CHECKED, REPLACE, REVERT, UNLOAD};
use crate::second::limits::ID;

/// Times for a job.
pub const TIMES: [u32; 8] = [0, 0, 1, 2, 3, 5, 40, u32::MAX];

impl Driver<'_> {
    /// A call that furthers what stands.
    pub fn intent(&mut self) -> Does {
        let state = match self.session.state.clone() {
            Some(state) => state,
            None => return self.nonsense(),
        };
        if state.job.action == 0 {
            return self.without_job(&state);
        }
        let chance = match self.mood {
            Mood::Mixed => 30,
            Mood::Climb => 200,
            Mood::Full => 1_000,
        };
        match self.rng.below(chance) {
            0 | 1 => self.action(&state, UNLOAD),
            2 | 3 => self.ask(&state),
            4 => self.upload(&state),
            5..=8 => Does::Tick,
            _ if state.complete() => Does::Work,
            _ => self.report(&state),
        }
    }

    /// A report of a CPU that isn't held yet, sometimes of any.
    fn report(&mut self, state: &State) -> Does {
        let cpus = state.host.cpus;
        let missing: Vec<u32> = (0..cpus).filter(|cpu| !state.job.held[*cpu as usize]).collect();
        let any = self.rng.below(u64::from(cpus) + 1) as u32;
        Does::Report { cpu: if missing.is_empty() || self.rng.one_in(6) { any } else { self.rng.pick(&missing) } }
    }

    fn without_job(&mut self, state: &State) -> Does {
        if self.mood == Mood::Full {
            return self.towards_a_replace(state);
        }
        let room = state.payloads.len() < 8;
        match self.rng.below(if self.mood == Mood::Climb { 11 } else { 20 }) {
            0..=3 if room => self.upload(state),
            0..=8 => self.apply(state).unwrap_or_else(|| self.make_way(state)),
            9 | 11 | 12 => self.ask(state),
            _ => {
                let command = self.rng.pick(&[UNLOAD, UNLOAD, REVERT, REVERT, APPLY, REPLACE]);
                self.action(state, command)
            }
        }
    }

    /// What to do where no payload can be applied.
    fn make_way(&mut self, state: &State) -> Does {
        if state.payloads.len() < 8 || self.rng.one_in(8) {
            return self.upload(state);
        }
        let command = self.rng.pick(&[UNLOAD, UNLOAD, REVERT, REPLACE]);
        self.action(state, command)
    }

    /// Eight payloads, seven of them applied, then a replace.
    fn towards_a_replace(&mut self, state: &State) -> Does {
        if state.payloads.len() < 8 {
            return self.upload(state);
        }
        if state.applied == 7 {
            return self.action(state, REPLACE);
        }
        self.apply(state).unwrap_or_else(|| self.make_way(state))
    }

    /// The apply of a payload that depends on the top build-id, where one does.
    fn apply(&mut self, state: &State) -> Option<Does> {
        let top = self.top_id(state);
        let fits = |at: &usize| state.payloads[*at].status == CHECKED && state.payloads[*at].dependency() == top;
        let fitting: Vec<usize> = (0..state.payloads.len()).filter(fits).collect();
        if fitting.is_empty() {
            return None;
        }
        let name = state.payloads[self.rng.pick(&fitting)].name().to_vec();
        Some(Does::Action { name, command: APPLY, time: self.rng.pick(&TIMES) })
    }

    fn top_id(&self, state: &State) -> Vec<u8> {
        match state.top().and_then(|slot| state.in_slot(slot)) {
            Some(top) => self.session.memory().ids.inner()[ID * top.slot as usize..][..top.id_len as usize].to_vec(),
            None => self.ground.world.build_id.clone(),
        }
    }

    /// An action on a payload of the status that it needs, where there is one; sometimes on any.
    fn action(&mut self, state: &State, command: u32) -> Does {
        let wanted = if command == REVERT { APPLIED } else { CHECKED };
        let fitting: Vec<&[u8]> =
            state.payloads.iter().filter(|payload| payload.status == wanted).map(|payload| payload.name()).collect();
        let top = state.top().and_then(|slot| state.in_slot(slot));
        let name = match top {
            Some(top) if command == REVERT && !self.rng.one_in(3) => top.name().to_vec(),
            _ if fitting.is_empty() || self.rng.one_in(8) => self.name(state),
            _ => self.rng.pick(&fitting).to_vec(),
        };
        Does::Action { name, command, time: self.rng.pick(&TIMES) }
    }

    /// The name of a payload that is loaded, sometimes of another one.
    pub fn name(&mut self, state: &State) -> Vec<u8> {
        if state.payloads.is_empty() || self.rng.one_in(6) {
            return self.ground.pool.names[self.rng.index(self.ground.pool.names.len())].clone();
        }
        state.payloads[self.rng.index(state.payloads.len())].name().to_vec()
    }

    fn ask(&mut self, state: &State) -> Does {
        match self.rng.below(4) {
            0 => Does::TopBuildId,
            1 => Does::Get { name: self.name(state) },
            _ => self.list(),
        }
    }

    pub fn list(&mut self) -> Does {
        let (idx, nr) = (self.rng.below(10) as u32, self.rng.below(10) as u32);
        let mut room = [8, 128, 4].map(|size| size * nr as usize);
        match self.rng.below(4) {
            0 => room = [64, 1_024, 32],
            1 => room[self.rng.index(3)] += self.rng.index(20),
            2 => {
                let buffer = self.rng.index(3);
                room[buffer] = room[buffer].saturating_sub(1 + self.rng.index(4));
            }
            _ => (),
        }
        Does::List { idx, nr, room }
    }

    /// A payload for the lowest free slot, mostly one that can be applied sooner or later.
    fn upload(&mut self, state: &State) -> Does {
        let pool = &self.ground.pool;
        let loaded = |slot: &usize| state.index_of_slot(*slot as u32).is_some();
        let free = (0..8).find(|slot| !loaded(slot)).unwrap_or(0);
        let slot = if self.rng.one_in(20) { self.rng.index(8) } else { free };
        let unused: Vec<&Vec<u8>> = pool.names.iter().filter(|name| state.index_of_name(name).is_none()).collect();
        let name = self.rng.pick(&unused).clone();
        let piece = pool.piece(slot, self.mood == Mood::Full, &mut self.rng);
        let ids = self.session.memory().ids.inner();
        let last = state.payloads.last().map(|last| &ids[ID * last.slot as usize..][..last.id_len as usize]);
        let own = &self.ground.world.build_id[..];
        let full = self.mood == Mood::Full && state.payloads.len() == 7;
        let dependency = match self.rng.below(if self.mood == Mood::Mixed { 6 } else { 40 }) {
            _ if full => own,
            0 => own,
            1 => pool.id(&mut self.rng),
            _ => last.unwrap_or(own),
        };
        let file = piece.file(pool.id(&mut self.rng), dependency);
        Does::Upload { name, symbols: piece.list(), file }
    }
}
