//! A host: where its text and arena lie, and what the text and the build-id are.

use crate::rng::Rng;
use crate::second::calls::host::Host;
use crate::second::limits::ID;

#[derive(Clone)]
pub struct World {
    pub host: Host,
    pub text: Vec<u8>,
    pub build_id: Vec<u8>,
}

/// So far may text and arena lie from each other, so that every jump reaches its new code.
const NEAR: u64 = (1 << 31) - (1 << 25);

impl World {
    /// A host of these numbers; its text is from a seed.
    pub fn new(text_base: u64, text_len: u64, arena_base: u64, build_id: &[u8], cpus: u32) -> World {
        let build_id_len = build_id.len() as u32;
        let host = Host { text_base, text_len, arena_base, build_id_len, cpus };
        World { host, text: Rng::new(text_base).bytes(text_len as usize), build_id: build_id.to_vec() }
    }

    /// A host that start-up takes, whose arena is within a jump's reach.
    pub fn random(rng: &mut Rng) -> World {
        let text_len = match rng.below(8) {
            0 => rng.between(1, 40),
            1 => rng.between(2_000, 9_000),
            _ => rng.between(1_000, 2_400),
        };
        let build_id_len = rng.pick(&[1, 20, 20, 20, 33, ID - 1, ID]);
        let build_id = rng.bytes(build_id_len);
        loop {
            let any = rng.number();
            let page = rng.pick(&[0xffff_82d0_8020_0000, 0x8000_0000_0000_0000, 0, any]);
            let text_base = rng.pick(&[page, page, page.wrapping_sub(text_len), 0u64.wrapping_sub(text_len)]);
            let away = rng.below(NEAR) >> rng.below(31);
            let aside = if rng.one_in(2) { text_base.wrapping_add(away) } else { text_base.wrapping_sub(away) };
            let world = World::new(text_base, text_len, aside & !4_095, &build_id, cpus(rng));
            if world.host.stands() {
                return world;
            }
        }
    }
}

/// Mostly few CPUs, so that many jobs get beyond their rendezvous.
pub fn cpus(rng: &mut Rng) -> u32 {
    match rng.below(8) {
        0..=2 => 1,
        3 | 4 => 2,
        5 | 6 => rng.between(3, 6) as u32,
        _ => rng.pick(&[7, 32, 63, 64]),
    }
}
