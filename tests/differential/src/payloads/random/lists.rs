//! Valid symbol lists of wide variety.

use super::plan::random_name;
use crate::payloads::assemble::list_bytes;
use crate::rng::Rng;
use std::collections::BTreeMap;

/// A valid symbol list.
pub fn symbol_list(rng: &mut Rng) -> Vec<u8> {
    let count = match rng.below(12) {
        0 => 0,
        1 => rng.between(200, 600),
        2 => 1,
        _ => rng.between(2, 30),
    };
    let mut names: BTreeMap<Vec<u8>, u64> = BTreeMap::new();
    let mut last = random_name(rng);
    for _ in 0..count {
        let name = if rng.one_in(3) { near(&last, rng) } else { random_name(rng) };
        names.insert(name.clone(), rng.number() >> rng.below(64));
        last = name;
    }
    list_bytes(&names.into_iter().collect::<Vec<_>>())
}

/// A name that differs little from another one: longer, shorter, or in its last byte.
fn near(name: &[u8], rng: &mut Rng) -> Vec<u8> {
    let mut near = name.to_vec();
    match rng.below(3) {
        0 if near.len() < 127 => near.push(rng.between(1, 255) as u8),
        1 if near.len() > 1 => near.truncate(near.len() - 1),
        _ => {
            let last = near.len() - 1;
            near[last] = rng.between(1, 255) as u8;
        }
    }
    near
}
