//! The next call of a random sequence where it may be any.

use super::call::Does;
use super::driver::Driver;
use super::intents::TIMES;

impl Driver<'_> {
    /// Any call with any arguments.
    pub fn nonsense(&mut self) -> Does {
        let names = &self.ground.pool.names;
        let loaded = self.session.state.clone();
        let name = match (self.rng.below(8), &loaded) {
            (0, _) => self.no_name(),
            (1, _) | (_, None) => names[self.rng.index(names.len())].clone(),
            (_, Some(state)) => self.name(state),
        };
        match self.rng.below(12) {
            0 => {
                let (symbols, file) = self.ground.pool.damaged(self.rng.index(8), &mut self.rng);
                Does::Upload { name, symbols, file }
            }
            1 | 2 => {
                let (symbols, file) = self.ground.pool.damaged(0, &mut self.rng);
                Does::Upload { name: names[self.rng.index(names.len())].clone(), symbols, file }
            }
            3 => Does::Get { name },
            4 => self.list(),
            5..=7 => {
                let any = self.rng.number() as u32;
                let command = self.rng.pick(&[0, 1, 2, 2, 3, 3, 4, 4, 5, any]);
                Does::Action { name, command, time: self.rng.pick(&TIMES) }
            }
            8 => {
                let any = self.rng.number() as u32;
                Does::Report { cpu: self.rng.pick(&[0, 1, 63, 64, any]) }
            }
            9 => Does::Tick,
            10 => Does::Work,
            _ => Does::TopBuildId,
        }
    }

    /// Bytes that are no name, or nearly none.
    fn no_name(&mut self) -> Vec<u8> {
        let any = self.rng.index(131);
        let length = self.rng.pick(&[0, 1, 2, 128, 129, any]);
        let mut name: Vec<u8> = (0..length).map(|_| self.rng.between(1, 255) as u8).collect();
        if let (Some(last), false) = (name.last_mut(), self.rng.one_in(3)) {
            *last = 0;
        }
        if length > 2 && self.rng.one_in(3) {
            let at = self.rng.index(length);
            name[at] = 0;
        }
        name
    }
}
