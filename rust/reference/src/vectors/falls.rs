//! Blocks in which the weight exponent comes down, or just not.

use super::blocks::{BlockVector, Blocks};
use super::gathering::gathering;
use super::pairs;
use crate::block::SampleDetail;
use crate::random::{Aim, Loudness};
use crate::settings::Settings;
use crate::state::State;

/// All of them.
pub(super) fn falls(all: &mut Blocks) {
    from_15(all);
    beside_4096(all);
    by_the_new_weights(all);
    up_and_down(all);
    about_six(all);
    all.each("weights about to be doubled, every other time with M = 0", None, 1..=15, |all, psi| {
        let mut settings = all.settings();
        settings.n = settings.n.min(1.max(settings.p - 1).max(8));
        settings.m *= u32::from(psi) % 2;
        let state = State { psi, ..all.random.falling_state(settings) };
        all.any_call(&state)
    });
    all.each("small weights at ψ = 0, where nothing is doubled", None, 0..6, |all, _| {
        let mut call = falling(all);
        call.before.psi = 0;
        call
    });
}

/// No weights yet.
fn zeros(psi: u8, p: u8, q: u8, n: u8) -> State {
    State { psi, ..State::zeros(Settings { p, q, n, r: 1, l: 0, m: 0 }) }
}

/// In one block to 0 where all weights are 0, and so far that a weight of so many bits has 13. Over blocks of four
/// samples, each on the record that the one before left; frozen, and with a small step.
fn from_15(all: &mut Blocks) {
    all.each("weights of 0 from 15 to 0", 0, pairs([(1, 1), (3, 2), (16, 16)], [0, 1]), |all, ((p, q), part)| {
        let mut state = zeros(15, p, q, 17);
        state.settings.m = part * state.settings.greatest_m();
        all.call(&state, Loudness::Zero, Aim::Decided)
    });
    all.each("a frozen weight grows to 13 bits", 0, [1, 2, 5, 9, 12, 13], |all, bits| {
        let mut state = zeros(15, 2, 2, 14);
        let place = all.random.below(4) as usize;
        state.weights[place] = (all.random.sign() * ((1 << bits) - 1)) as i16;
        all.any_call(&state)
    });
    all.each("down over several blocks", 0, pairs([0, 1], 0..4), |all, (part, block)| {
        let mut state = zeros(15, 2, 3, 4);
        state.settings.m = part * state.settings.greatest_m() / 64;
        if block > 0 {
            state = all.list[all.list.len() - 1].after.compact();
        }
        all.call(&state, Loudness::Faint, Aim::Mixed)
    });
    assert!(all.list[all.list.len() - 1].after.psi < 3);
}

/// A call from a record whose weights are about to be doubled; N is small.
fn falling(all: &mut Blocks) -> BlockVector {
    let mut settings = all.settings();
    settings.n = 1.max(settings.p - 1);
    settings.m = settings.greatest_m() >> all.random.below(8);
    let state = all.random.falling_state(settings);
    all.any_call(&state)
}

/// One weight of either filter decides: with M = 0, and at the first sample, where the step has moved it.
fn beside_4096(all: &mut Blocks) {
    let beside = [4095, -4095, 4096, -4096];
    let places = [(1, 0), (15, 2), (1, 3), (9, 4)];
    all.each("a weight beside 4096", 0, pairs(places, beside), |all, ((psi, place), weight)| {
        let mut state = zeros(psi, 3, 2, 2);
        state.weights.fill_with(|| all.random.pick(&[4095, -4095, 1, 0]));
        state.weights[place] = weight;
        all.any_call(&state)
    });
    for (wanted, feedback) in pairs(beside.map(i128::from), [false, true]) {
        all.find("a new weight beside 4096", 0, 2, |all| {
            let call = falling(all);
            let d = call.detail().ok()?.samples.swap_remove(0);
            let place = d.weights_new.iter().position(|&w| w == wanted)?;
            let largest = d.weights_new.iter().all(|w| w.abs() <= wanted.abs());
            let own = (place >= call.before.settings.p.into()) == feedback;
            (largest && own && d.weights_before[place] != wanted).then_some(call)
        });
    }
}

/// Only the weights before step 6 are all below 4096, or only those after it.
fn by_the_new_weights(all: &mut Blocks) {
    let small = |weights: &[i128]| weights.iter().all(|w| w.abs() < 4096);
    for before in [true, false] {
        all.find("the new weights decide", 0, 4, |all| {
            let call = falling(all);
            let d = call.detail().ok()?.samples.swap_remove(0);
            (small(&d.weights_before) == before && small(&d.weights_new) != before).then_some(call)
        });
    }
}

/// A call that may go up and down.
fn rising_and_falling(all: &mut Blocks) -> BlockVector {
    let mut settings = all.settings();
    settings.n = all.random.byte(1.max(settings.p - 1).max(20), 36);
    settings.m = settings.greatest_m();
    let state = match all.random.chance(1, 2) {
        true => all.random.falling_state(settings),
        false => all.random.sound_state(settings),
    };
    let loudness = all.random.pick(&[Loudness::Loud, Loudness::LoudRandom, Loudness::Lowest, Loudness::Any]);
    let aim = all.random.aim();
    all.call(&state, loudness, aim)
}

/// ψ falls and then rises within a block, or rises and then falls.
fn up_and_down(all: &mut Blocks) {
    let moved = |d: &SampleDetail, by: i32| d.psi_after - d.psi_before == by;
    for (about, first) in [("down, then up", -1), ("up, then down", 1)] {
        all.find(about, 0, 6, |all| {
            let call = rising_and_falling(all);
            let detail = call.detail().ok()?;
            let mut samples = detail.samples.iter();
            (samples.any(|d| moved(d, first)) && samples.any(|d| moved(d, -first))).then_some(call)
        });
    }
}

/// From 15 to 14 and up again, with 6 where 16 would come: also where there
/// would be no 6 if ψ only rose, and none where there would be one.
fn about_six(all: &mut Blocks) {
    for (about, number, size, larger) in [
        ("down and up to 15", 0, 3800, 0),
        ("6 after a fall", 6, 3850, 0),
        ("6 only after a fall", 6, 3804, 13),
        ("6 only after a fall", 6, 3804, 24),
        ("no 6 after a fall", 0, 3804, 23),
        ("no 6 after a fall", 0, 3805, 1),
    ] {
        let block = gathering(size, larger);
        all.put(about, number, BlockVector::lent(&block.state, block.samples, block.gains, block.training));
    }
}
