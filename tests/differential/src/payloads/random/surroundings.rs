//! Where text and slot lie: near each other, at address 0, at 2^64, and around it.

use crate::rng::Rng;
use crate::second::Surroundings;

/// So far may a jump's slot lie from its text.
const NEAR: u64 = (1 << 31) - (1 << 25);

/// A text range of this length and a slot where a jump's reach ends: some jumps get there, others don't.
pub fn edge(text_len: u64, rng: &mut Rng) -> Surroundings {
    let limit = 1u64 << 31;
    loop {
        let text_base = rng.number();
        let distance = match rng.one_in(2) {
            true => limit.wrapping_sub(8192).wrapping_add(rng.below(8192 + text_len)),
            false => limit.wrapping_neg().wrapping_sub(8192).wrapping_add(rng.below(8192 + text_len)),
        };
        let around = Surroundings { text_base, text_len, slot_base: text_base.wrapping_add(distance) };
        if around.stand() {
            return around;
        }
    }
}

/// A text range of this length and a slot that share no byte; a near slot is within a jump's reach.
pub fn surroundings(text_len: u64, near: bool, rng: &mut Rng) -> Surroundings {
    loop {
        let (text_base, slot_base) = bases(text_len, near, rng);
        let around = Surroundings { text_base, text_len, slot_base };
        let distance = slot_base.wrapping_sub(text_base);
        let apart = distance >= text_len && distance.wrapping_neg() >= 8192;
        let reached = distance <= NEAR || distance.wrapping_neg() <= NEAR;
        if around.stand() && apart && (reached || !near) {
            return around;
        }
    }
}

fn bases(text_len: u64, near: bool, rng: &mut Rng) -> (u64, u64) {
    let page = if rng.one_in(4) { 1 } else { 4096 };
    let away = rng.below(if near { NEAR } else { u64::MAX }) / page * page;
    match rng.below(8) {
        0 => (0, 4096 + away),
        1 => (rng.below(4096), text_len + 4096 + away),
        2 => (text_len.wrapping_neg(), away),
        3 => (text_len.wrapping_neg(), text_len.wrapping_neg().wrapping_sub(8192 + away)),
        4 => (rng.below(1 << 20), 8192u64.wrapping_neg()),
        5 => (8192u64.wrapping_neg().wrapping_sub(text_len + away), 8192u64.wrapping_neg()),
        _ => {
            let any = rng.number();
            let base = rng.pick(&[0xffff_82d0_8000_0000, 0xffff_82d0_4020_0000, 0x8000_0000_0000_0000, any]);
            (base, if rng.one_in(2) { base.wrapping_add(text_len + away) } else { base.wrapping_sub(8192 + away) })
        }
    }
}
