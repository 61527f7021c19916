//! Settings and states that are turned down.

use reference::numbers::scale_count;
use reference::random::Random;
use reference::state::SLOTS;
use reference::{Settings, State};

/// A size outside its limits.
pub fn wrong_size(random: &mut Random, s: &mut Settings) {
    match random.below(6) {
        0 => s.p = random.pick(&[0, 17, 255]),
        1 => s.q = random.pick(&[0, 17, 255]),
        2 => s.n = random.pick(&[0, 129, 255]),
        3 => s.r = random.pick(&[4, 255]),
        4 => s.l = random.pick(&[16, 255]),
        _ => (s.p, s.n) = (16, random.byte(1, 14)),
    }
}

/// An M that is not admitted.
pub fn wrong_step(random: &mut Random, settings: &Settings) -> u32 {
    let above = settings.greatest_m() + 1;
    random.pick(&[above, above, 1 << 30, u32::MAX])
}

/// One place of a sound state that makes it unsound.
pub fn unsound(random: &mut Random, state: &mut State) {
    let (p, taps) = (usize::from(state.settings.p), state.settings.taps());
    let tap = random.below(taps as u64) as usize;
    let symbol = random.between(p as i64, taps as i64 - 1) as usize;
    let last = state.weights.len() - 1;
    let spare = |random: &mut Random| last.min(random.between(taps.min(SLOTS - 1) as i64, 31) as usize);
    // The least that is too large: of B, of a past sample, of a symbol.
    let above = 32 - state.settings.l;
    let room = 15 + i32::from(state.b) - i32::from(state.bmax) - scale_count(state.settings.p);
    let (least, beyond) = (1 << room.max(0), (2 << state.settings.r) + 1);
    match random.below(10) {
        0 => state.psi = random.byte(16, 255),
        1 => state.b = state.bmax + 1,
        2 => (state.b, state.bmax) = (above, above),
        3 => state.weights[tap] = random.pick(&[16384, -16384, 32767, -32768]),
        4 => state.data[0] = random.pick(&[-32768, 32767, 16384, least, -least]),
        5 => state.data[p - 1] = random.pick(&[1, -1, 256]),
        6 => state.data[symbol] = random.pick(&[2, -2, beyond, -beyond, 256]),
        7 => state.weights[spare(random)] = -32768,
        8 => state.data[spare(random)] = 256,
        _ => (state.b, state.bmax) = (255, 255),
    }
}
