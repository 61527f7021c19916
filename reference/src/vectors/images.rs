//! Images, good and damaged.

use crate::block::{run, Inputs, Outputs};
use crate::image::{image_length, load, save};
use crate::numbers::scale_count;
use crate::random::Random;
use crate::settings::Settings;
use crate::state::State;

/// Bytes and what loading answers.
#[derive(Clone, Debug)]
pub struct ImageVector {
    /// What the bytes are about.
    pub about: &'static str,
    pub image: Vec<u8>,
    pub number: u8,
}

impl ImageVector {
    /// The length (u16), the bytes, the number.
    pub fn bytes(&self) -> Vec<u8> {
        let mut bytes = (self.image.len() as u16).to_le_bytes().to_vec();
        bytes.extend(&self.image);
        bytes.push(self.number);
        bytes
    }
}

fn image(state: &State) -> Vec<u8> {
    let mut buffer = vec![0; image_length(&state.settings)];
    assert_eq!(save(state, &mut buffer), (0, buffer.len()));
    buffer
}

struct Collection {
    random: Random,
    list: Vec<ImageVector>,
}

impl Collection {
    fn put(&mut self, about: &'static str, bytes: Vec<u8>) -> u8 {
        let (number, state) = load(&bytes);
        if number == 0 {
            assert_eq!(image(&state), bytes);
        } else {
            assert_eq!(state, State::fresh());
        }
        self.list.push(ImageVector {
            about,
            image: bytes,
            number,
        });
        number
    }

    fn expect(&mut self, about: &'static str, bytes: Vec<u8>, number: u8) {
        assert_eq!(self.put(about, bytes), number, "{about}");
    }

    /// A good state with p at least 2 and L at least 1, so that every kind of
    /// damage has its place.
    fn roomy_state(&mut self) -> State {
        let mut settings = self.random.settings();
        settings.p = settings.p.clamp(2, 15);
        settings.n = settings.n.max(settings.p);
        settings.l = settings.l.max(1);
        settings.m = settings.largest_m() / 2;
        self.random.sound_state(settings)
    }
}

/// All image vectors.
pub fn image_vectors() -> Vec<ImageVector> {
    let mut all = Collection {
        random: Random::new(0x696D_6167),
        list: Vec::new(),
    };
    good_images(&mut all);
    wrong_lengths(&mut all);
    wrong_sizes(&mut all);
    wrong_steps(&mut all);
    every_step(&mut all);
    unsound_images(&mut all);
    every_length_of_samples(&mut all);
    every_place(&mut all);
    in_order(&mut all);
    changed_bits(&mut all);
    all.list
}

fn good_images(all: &mut Collection) {
    all.expect("the fresh state", image(&State::fresh()), 0);
    let example = [
        0x01, 0x01, 0x01, 0x00, 0x00, 0x00, 0x1E, 0x1E, 0x00, 0x00, 0x00, 0x04, 0xF0, 0x07, 0xE0,
        0x07, 0x00, 0x00, 0x01, 0x00,
    ];
    all.expect("the worked example", example.to_vec(), 0);
    for _ in 0..60 {
        let settings = all.random.settings();
        let state = all.random.sound_state(settings);
        all.expect("any sound state", image(&state), 0);
    }
    // States that a block left.
    let mut left = 0;
    while left < 24 {
        let settings = all.random.settings();
        let mut state = all.random.sound_state(settings);
        let loudness = all.random.loudness();
        let (samples, gains) = all.random.samples(&settings, loudness);
        let aim = all.random.aim();
        let training = all.random.training(&settings, aim);
        let inputs = Inputs {
            samples: &samples,
            gains: &gains,
            training: &training,
        };
        let mut outputs = Outputs::zeros(usize::from(settings.n));
        if run(&mut state, inputs, &mut outputs) == 0 {
            all.expect("a state that a block left", image(&state), 0);
            left += 1;
        }
    }
    // Every place at its bound.
    for (p, q, n, r, l) in [
        (1, 1, 1, 0, 0),
        (16, 16, 128, 3, 0),
        (16, 16, 15, 3, 15),
        (1, 16, 1, 2, 7),
        (16, 1, 15, 1, 0),
        (2, 2, 1, 0, 15),
    ] {
        for sign in [1i16, -1] {
            let settings = Settings {
                p,
                q,
                n,
                r,
                l,
                m: 0,
            };
            let mut state = State::zeros(settings.with_m(settings.largest_m()));
            state.psi = 15;
            state.b = 31 - l;
            state.bmax = 31 - l;
            state.weights.fill(16383 * sign);
            let bound = (1i16 << (15 - scale_count(p))) - 1;
            let forward = usize::from(p);
            state.data[..forward - 1].fill(bound * sign);
            state.data[forward..].fill(settings.end_symbol() as i16 * sign);
            all.expect("every place at its bound", image(&state), 0);
        }
    }
}

fn wrong_lengths(all: &mut Collection) {
    let good = image(&all.roomy_state());
    for length in 0..12 {
        all.expect("below 12 bytes", good[..length].to_vec(), 8);
    }
    all.expect("below 12 bytes", vec![0xFF; 11], 8);
    all.expect("below 12 bytes", vec![0; 5], 8);
    for i in 0..40u64 {
        let good = image(&all.roomy_state());
        let mut bytes = good.clone();
        match i % 5 {
            0 => {
                bytes.pop();
            }
            1 => bytes.push(0),
            2 => bytes.truncate(12),
            3 => {
                let length = all.random.between(12, good.len() as i64 - 1);
                bytes.truncate(length as usize);
            }
            _ => bytes.extend(vec![0; all.random.between(2, 130) as usize]),
        }
        all.expect("another length", bytes, 8);
    }
    // Another p or q within the limits asks for another length.
    for place in [0, 1] {
        let mut bytes = image(&all.roomy_state());
        bytes[2] = 128;
        bytes[place] += if bytes[place] < 16 { 1 } else { 255 };
        all.expect("taps that do not fit the length", bytes, 8);
    }
}

fn wrong_sizes(all: &mut Collection) {
    for (place, values) in [
        (0, vec![0, 17, 18, 128, 255]),
        (1, vec![0, 17, 18, 128, 255]),
        (2, vec![0, 129, 130, 255]),
        (3, vec![4, 5, 128, 255]),
        (4, vec![16, 17, 128, 255]),
    ] {
        for value in values {
            let mut bytes = image(&all.roomy_state());
            bytes[place] = value;
            all.expect("a size outside its limits", bytes.clone(), 1);
            // With the exact length that p + q would ask for.
            let taps = usize::from(bytes[0]) + usize::from(bytes[1]);
            bytes.resize(12 + 4 * taps, 0);
            all.expect("a size outside its limits", bytes.clone(), 1);
            // With 12 bytes only.
            bytes.truncate(12);
            all.expect("a size outside its limits", bytes, 1);
        }
    }
    for p in 3..=16u8 {
        let settings = Settings {
            p,
            q: 2,
            n: p - 1,
            r: 1,
            l: 1,
            m: 5,
        };
        let mut bytes = image(&State::zeros(settings));
        all.expect("the shortest block", bytes.clone(), 0);
        bytes[2] = p - 2;
        all.expect("a block below p - 1", bytes, 1);
    }
}

fn wrong_steps(all: &mut Collection) {
    for i in 0..24u32 {
        let state = all.roomy_state();
        let largest = state.settings.largest_m();
        let mut bytes = image(&state);
        let m = match i % 4 {
            0 | 1 => largest + 1,
            2 => 1 << 30,
            _ => u32::MAX,
        };
        bytes[8..12].copy_from_slice(&m.to_le_bytes());
        if i >= 12 {
            bytes[5] = 16;
        }
        all.expect("a step beyond the largest", bytes.clone(), 2);
        if i < 12 {
            bytes[8..12].copy_from_slice(&largest.to_le_bytes());
            all.expect("the largest step", bytes, 0);
        }
    }
}

fn unsound_images(all: &mut Collection) {
    type Change = fn(&mut State, &mut Random);
    let changes: [Change; 29] = [
        |s, _| s.psi = 16,
        |s, _| s.psi = 128,
        |s, _| s.psi = 255,
        |s, _| s.b = s.bmax + 1,
        |s, _| s.b = 255,
        |s, _| {
            s.bmax = 32 - s.settings.l;
            s.b = s.bmax;
        },
        |s, _| s.bmax = 255,
        |s, _| (s.b, s.bmax) = (255, 255),
        |s, _| s.weights[0] = 16384,
        |s, _| s.weights[0] = -16384,
        |s, random| {
            let place = random.below(s.settings.taps() as u64) as usize;
            s.weights[place] = 16384;
        },
        |s, random| {
            let place = random.below(s.settings.taps() as u64) as usize;
            s.weights[place] = -32768;
        },
        |s, _| s.weights[s.settings.taps() - 1] = -16384,
        |s, _| s.weights[s.settings.taps() - 1] = 32767,
        |s, _| {
            s.b = s.bmax;
            s.data[0] = 1 << (15 - scale_count(s.settings.p));
        },
        |s, _| {
            s.b = s.bmax;
            s.data[usize::from(s.settings.p) - 2] = -(1 << (15 - scale_count(s.settings.p)));
        },
        |s, _| {
            (s.b, s.bmax) = (3, 6);
            s.data[..usize::from(s.settings.p) - 1].fill(0);
            s.data[0] = -(1 << (12 - scale_count(s.settings.p)));
        },
        |s, _| {
            (s.b, s.bmax) = (0, 16);
            s.data[..usize::from(s.settings.p) - 1].fill(0);
            s.data[0] = 1;
        },
        |s, _| s.data[0] = -32768,
        |s, _| s.data[usize::from(s.settings.p) - 1] = 1,
        |s, _| s.data[usize::from(s.settings.p) - 1] = -32768,
        |s, _| s.data[usize::from(s.settings.p)] = 2,
        |s, _| s.data[usize::from(s.settings.p)] = -2,
        |s, _| s.data[s.settings.taps() - 1] = (2 << s.settings.r) + 1,
        |s, _| s.data[s.settings.taps() - 1] = -(2 << s.settings.r) - 1,
        |s, _| s.data[s.settings.taps() - 1] = 256,
        |s, _| s.data[s.settings.taps() - 1] = -32767,
        |s, _| s.data[s.settings.taps() - 1] = -32768,
        |s, _| s.weights[usize::from(s.settings.p)] = -32768,
    ];
    for change in changes {
        for _ in 0..4 {
            let mut state = all.roomy_state();
            change(&mut state, &mut all.random);
            all.expect("an unsound state", raw_image(&state), 9);
        }
    }
}

/// The image of any state, sound or not.
fn raw_image(state: &State) -> Vec<u8> {
    let mut bytes = crate::image::header(state).to_vec();
    for a in state.weights.iter().chain(&state.data) {
        bytes.extend(a.to_le_bytes());
    }
    bytes
}

/// The largest step and one above it, for every r and L.
fn every_step(all: &mut Collection) {
    for r in 0..=Settings::MOST_R {
        for l in 0..=Settings::MOST_GAIN {
            let p = all.random.byte(1, 16);
            let q = all.random.byte(1, 16);
            let n = p;
            let m = 0;
            let settings = Settings { p, q, n, r, l, m };
            let largest = settings.largest_m();
            let good = State::zeros(settings.with_m(largest));
            all.expect("the largest step", raw_image(&good), 0);
            let bad = State::zeros(settings.with_m(largest + 1));
            all.expect("one above the largest step", raw_image(&bad), 2);
        }
    }
}

/// ψ of 0 to 15, and B of 31 − L and one more, for every L.
fn every_length_of_samples(all: &mut Collection) {
    for l in 0..=Settings::MOST_GAIN {
        let settings = Settings {
            p: 2,
            q: 1,
            n: 1,
            r: 1,
            l,
            m: 3,
        };
        let mut state = State::zeros(settings);
        state.psi = l;
        state.bmax = 31 - l;
        all.expect("the largest B", raw_image(&state), 0);
        state.b = state.bmax;
        all.expect("the largest b and B", raw_image(&state), 0);
        state.b = state.bmax + 1;
        all.expect("b above B", raw_image(&state), 9);
        (state.b, state.bmax) = (0, 32 - l);
        all.expect("B above 31 - L", raw_image(&state), 9);
    }
}

/// Each place of a state with all taps at its bound and just beyond it, the
/// others 0.
fn every_place(all: &mut Collection) {
    let settings = Settings {
        p: 16,
        q: 16,
        n: 15,
        r: 2,
        l: 0,
        m: 7,
    };
    let mut zeros = State::zeros(settings);
    (zeros.b, zeros.bmax) = (20, 20);
    for sign in [1, -1] {
        for place in 0..32 {
            let mut state = zeros.clone();
            state.weights[place] = 16383 * sign;
            all.expect("a weight at its bound", raw_image(&state), 0);
            state.weights[place] = 16384 * sign;
            all.expect("a weight beyond its bound", raw_image(&state), 9);
        }
        // S(16) = 5: |A| is below 2^10.
        for place in 0..32 {
            let (good, bad) = match place {
                0..=14 => (1023, 1024),
                15 => (0, 1),
                _ => (7, 9),
            };
            let mut state = zeros.clone();
            state.data[place] = good * sign;
            all.expect("data at their bound", raw_image(&state), 0);
            state.data[place] = bad * sign;
            all.expect("data beyond their bound", raw_image(&state), 9);
        }
        for place in 16..32 {
            let mut state = zeros.clone();
            state.data[place] = 6 * sign;
            all.expect("an even past symbol", raw_image(&state), 9);
        }
    }
}

/// Each refusal with all later ones present too.
fn in_order(all: &mut Collection) {
    let state = all.roomy_state();
    let mut bytes = image(&state);
    bytes[5] = 16;
    all.expect("9 alone", bytes.clone(), 9);
    bytes[8..12].fill(0xFF);
    all.expect("2 before 9", bytes.clone(), 2);
    bytes.push(0);
    all.expect("8 before 2", bytes.clone(), 8);
    bytes[3] = 4;
    all.expect("1 before 8", bytes.clone(), 1);
    bytes.truncate(11);
    all.expect("8 before 1", bytes, 8);
}

/// Good images with bits changed anywhere.
fn changed_bits(all: &mut Collection) {
    let mut refused = 0;
    while refused < 120 {
        let settings = all.random.settings();
        let mut bytes = image(&all.random.sound_state(settings));
        for _ in 0..all.random.between(1, 3) {
            let place = all.random.below(bytes.len() as u64) as usize;
            bytes[place] ^= 1 << all.random.below(8);
        }
        if all.put("changed bits", bytes) != 0 {
            refused += 1;
        }
    }
}
