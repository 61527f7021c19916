//! Blocks in which the weight exponent comes down, or just not.

use super::blocks::{Call, Collection};
use super::gathering::gathering;
use crate::block::{BlockDetail, SampleDetail};
use crate::random::{Aim, Loudness};
use crate::settings::Settings;
use crate::state::State;

/// All of them.
pub(super) fn falls(all: &mut Collection) {
    to_the_end(all);
    over_several_blocks(all);
    beside_4096(all);
    new_weights_beside_4096(all);
    by_the_new_weights(all);
    up_and_down(all);
    about_six(all);
    from_every_exponent(all);
    kept_at_zero(all);
}

fn sizes(p: u8, q: u8, n: u8) -> Settings {
    Settings {
        p,
        q,
        n,
        r: 1,
        l: 0,
        m: 0,
    }
}

fn doubled(d: &SampleDetail) -> bool {
    d.psi_after < d.psi_before
}

fn halved(d: &SampleDetail) -> bool {
    d.psi_after > d.psi_before
}

/// From ψ = 15, in one block: to 0 where all weights are 0, and so far that a
/// weight of so many bits has 13.
fn to_the_end(all: &mut Collection) {
    for (p, q) in [(1, 1), (3, 2), (16, 16)] {
        for m in [0, sizes(p, q, 17).largest_m()] {
            let mut state = State::zeros(sizes(p, q, 17).with_m(m));
            state.psi = 15;
            let call = Call::with(&mut all.random, state, Loudness::Zero, Aim::Decided);
            all.expect("weights of 0 from 15 to 0", &call, 0);
        }
    }
    for bits in [1, 2, 5, 9, 12, 13] {
        let mut state = State::zeros(sizes(2, 2, 14));
        state.psi = 15;
        let place = all.random.below(4) as usize;
        state.weights[place] = (all.random.sign() * ((1 << bits) - 1)) as i16;
        let call = Call::any(&mut all.random, state);
        all.expect("a frozen weight grows to 13 bits", &call, 0);
    }
}

/// Blocks of four samples, each on the record that the one before left.
fn over_several_blocks(all: &mut Collection) {
    let frozen = sizes(2, 3, 4);
    for settings in [frozen, frozen.with_m(frozen.largest_m() / 64)] {
        let mut state = State::zeros(settings);
        state.psi = 15;
        for _ in 0..4 {
            let call = Call::with(&mut all.random, state, Loudness::Faint, Aim::Mixed);
            all.expect("down over several blocks", &call, 0);
            state = all.left().compact();
        }
        assert!(state.psi < 3);
    }
}

/// One weight of either filter decides, with M = 0.
fn beside_4096(all: &mut Collection) {
    for (psi, place) in [(1, 0), (15, 2), (1, 3), (9, 4)] {
        for weight in [4095, -4095, 4096, -4096] {
            let mut state = State::zeros(sizes(3, 2, 2));
            state.psi = psi;
            for other in &mut state.weights {
                *other = all.random.pick(&[4095, -4095, 1, 0]);
            }
            state.weights[place] = weight;
            let call = Call::any(&mut all.random, state);
            all.expect("a weight beside 4096", &call, 0);
        }
    }
}

/// A call from a record whose weights are about to be doubled; N is small.
fn falling(all: &mut Collection) -> Call {
    let mut settings = all.settings();
    settings.n = 1.max(settings.p - 1);
    settings.m = settings.largest_m() >> all.random.below(8);
    let state = all.random.falling_state(settings);
    Call::any(&mut all.random, state)
}

/// The largest new weight at the first sample is 4095 or 4096, in either
/// filter, and the step of this sample has moved it.
fn new_weights_beside_4096(all: &mut Collection) {
    for wanted in [4095, -4095, 4096, -4096] {
        for feedback in [false, true] {
            let mut found = 0;
            while found < 2 {
                let call = falling(all);
                let Ok(detail) = call.detail() else { continue };
                let d = &detail.samples[0];
                let p = usize::from(call.state.settings.p);
                let place = d.weights_new.iter().position(|&w| w == wanted);
                let largest = d.weights_new.iter().all(|w| w.abs() <= wanted.abs());
                let moved = |place: usize| d.weights_before[place] != wanted;
                if largest && place.is_some_and(|place| (place >= p) == feedback && moved(place)) {
                    all.expect("a new weight beside 4096", &call, 0);
                    found += 1;
                }
            }
        }
    }
}

/// Only the weights before step 6 are all below 4096, or only those after it.
fn by_the_new_weights(all: &mut Collection) {
    let small = |weights: &[i128]| weights.iter().all(|w| w.abs() < 4096);
    for before in [true, false] {
        let mut found = 0;
        while found < 4 {
            let call = falling(all);
            let Ok(detail) = call.detail() else { continue };
            let d = &detail.samples[0];
            if small(&d.weights_before) == before && small(&d.weights_new) != before {
                all.expect("the new weights decide", &call, 0);
                found += 1;
            }
        }
    }
}

/// A call that may go up and down.
fn rising_and_falling(all: &mut Collection) -> Call {
    let mut settings = all.settings();
    settings.n = all.random.byte(1.max(settings.p - 1).max(20), 36);
    settings.m = settings.largest_m();
    let state = match all.random.chance(1, 2) {
        true => all.random.falling_state(settings),
        false => all.random.sound_state(settings),
    };
    let loudness = all.random.pick(&[
        Loudness::Loud,
        Loudness::LoudRandom,
        Loudness::Lowest,
        Loudness::Any,
    ]);
    let aim = all.random.aim();
    Call::with(&mut all.random, state, loudness, aim)
}

/// ψ falls and then rises within a block, or rises and then falls.
fn up_and_down(all: &mut Collection) {
    for (about, first, then) in [
        (
            "down, then up",
            doubled as fn(&_) -> _,
            halved as fn(&_) -> _,
        ),
        ("up, then down", halved, doubled),
    ] {
        let in_turn = |detail: &BlockDetail| {
            let mut samples = detail.samples.iter();
            samples.any(first) && samples.any(then)
        };
        let mut found = 0;
        while found < 6 {
            let call = rising_and_falling(all);
            if call.detail().is_ok_and(|detail| in_turn(&detail)) {
                all.expect(about, &call, 0);
                found += 1;
            }
        }
    }
}

/// From 15 to 14 and up again, with 6 where 16 would come: also where there
/// would be no 6 if ψ only rose, and none where there would be one.
fn about_six(all: &mut Collection) {
    for (about, size, larger, number) in [
        ("down and up to 15", 3800, 0, 0),
        ("6 after a fall", 3850, 0, 6),
        ("6 only after a fall", 3804, 13, 6),
        ("6 only after a fall", 3804, 24, 6),
        ("no 6 after a fall", 3804, 23, 0),
        ("no 6 after a fall", 3805, 1, 0),
    ] {
        let block = gathering(size, larger);
        let call = Call {
            state: block.state.lent(),
            samples: block.samples,
            gains: block.gains,
            training: block.training,
            output_lengths: [128; 5],
        };
        all.expect(about, &call, number);
    }
}

/// Every other one with M = 0.
fn from_every_exponent(all: &mut Collection) {
    for psi in 1..=15 {
        let mut settings = all.settings();
        settings.n = settings.n.min(1.max(settings.p - 1).max(8));
        if psi % 2 == 0 {
            settings.m = 0;
        }
        let mut state = all.random.falling_state(settings);
        state.psi = psi;
        let call = Call::any(&mut all.random, state);
        all.put("weights about to be doubled", &call);
    }
}

/// At ψ = 0 nothing is doubled.
fn kept_at_zero(all: &mut Collection) {
    for _ in 0..6 {
        let mut call = falling(all);
        call.state.psi = 0;
        all.put("small weights at ψ = 0", &call);
    }
}
