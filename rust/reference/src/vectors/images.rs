//! Images, good and damaged.

use super::states::{at_bounds, every_r_and_l, greatest, raw, UNSOUND};
use super::{pairs, Change, Made, Making};
use crate::block::{run, Inputs, Outputs};
use crate::image::{image_length, load, save};
use crate::settings::{Settings, MOST_GAIN};
use crate::state::State;

/// Bytes and what loading answers.
#[derive(Clone, Debug)]
pub struct ImageVector {
    /// What the bytes are about.
    pub about: &'static str,
    pub image: Vec<u8>,
    pub number: u8,
}

impl ImageVector {
    /// The bytes in the file.
    pub fn bytes(&self) -> Vec<u8> {
        let length = (self.image.len() as u16).to_le_bytes();
        [&length, &self.image[..], &[self.number]].concat()
    }
}

impl Made for ImageVector {
    type Lent = Vec<u8>;

    fn of(about: &'static str, image: Vec<u8>) -> ImageVector {
        let (number, state) = load(&image);
        if number == 0 {
            let mut saved = vec![0; image_length(&state.settings)];
            assert_eq!(save(&state, &mut saved), (0, image.len()));
            assert_eq!(saved, image);
        } else {
            assert_eq!(state, State::fresh());
        }
        ImageVector { about, image, number }
    }

    fn answer(&self) -> u8 {
        self.number
    }
}

type Images = Making<ImageVector>;

impl Images {
    fn sound(&mut self) -> State {
        let settings = self.random.settings();
        self.random.sound_state(settings)
    }

    /// A good state with p at least 2 and L at least 1, so that every kind of damage has its place.
    fn roomy(&mut self) -> State {
        let mut settings = self.random.settings();
        settings.p = settings.p.clamp(2, 15);
        settings.n = settings.n.max(settings.p);
        settings.l = settings.l.max(1);
        settings.m = settings.greatest_m() / 2;
        self.random.sound_state(settings)
    }
}

/// All image vectors.
pub fn image_vectors() -> Vec<ImageVector> {
    let mut all = Images::new(0x696D_6167);
    good_images(&mut all);
    wrong_lengths(&mut all);
    wrong_sizes(&mut all);
    wrong_steps(&mut all);
    let changes = UNSOUND.into_iter().filter(|(vectors, _)| vectors.contains('i'));
    all.each("an unsound state", 9, changes.flat_map(|(_, change)| [change; 4]), |all, change| {
        let mut state = all.roomy();
        change(&mut state, &mut all.random);
        raw(&state)
    });
    every_length_of_samples(&mut all);
    every_place(&mut all);
    in_order(&mut all);
    changed_bits(&mut all);
    all.list
}

fn good_images(all: &mut Images) {
    all.put("the fresh state", 0, raw(&State::fresh()));
    let example = vec![1, 1, 1, 0, 0, 0, 0x1E, 0x1E, 0, 0, 0, 4, 0xF0, 7, 0xE0, 7, 0, 0, 1, 0];
    all.put("the worked example", 0, example);
    all.each("any sound state", 0, 0..60, |all, _| raw(&all.sound()));
    all.find("a state that a block left", 0, 24, |all| {
        let mut state = all.sound();
        let (settings, loudness) = (state.settings, all.random.loudness());
        let (samples, gains) = all.random.samples(&settings, loudness);
        let aim = all.random.aim();
        let training = all.random.training(&settings, aim);
        let inputs = Inputs { samples: &samples, gains: &gains, training: &training };
        let number = run(&mut state, inputs, &mut Outputs::zeros(settings.n.into()));
        (number == 0).then(|| raw(&state))
    });
    let sizes = [
        [1, 1, 1, 0, 0],
        [16, 16, 128, 3, 0],
        [16, 16, 15, 3, 15],
        [1, 16, 1, 2, 7],
        [16, 1, 15, 1, 0],
        [2, 2, 1, 0, 15],
    ];
    all.each("every place at its bound", 0, pairs(sizes, [1, -1]), |_, ([p, q, n, r, l], sign)| {
        raw(&at_bounds(greatest(p, q, n, r, l), 15, |_| [sign; 2]))
    });
}

fn wrong_lengths(all: &mut Images) {
    let good = raw(&all.roomy());
    all.each("below 12 bytes", 8, 0..12, |_, length| &good[..length]);
    all.each("below 12 bytes", 8, [vec![0xFF; 11], vec![0; 5]], |_, bytes| bytes);
    all.each("another length", 8, 0..40, |all, i| {
        let mut bytes = raw(&all.roomy());
        let length = match i % 5 {
            0 => bytes.len() - 1,
            1 => bytes.len() + 1,
            2 => 12,
            3 => all.random.between(12, bytes.len() as i64 - 1) as usize,
            _ => bytes.len() + all.random.between(2, 130) as usize,
        };
        bytes.resize(length, 0);
        bytes
    });
    all.each("taps that do not fit the length", 8, [0, 1], |all, place| {
        let mut bytes = raw(&all.roomy());
        bytes[2] = 128;
        bytes[place] += 1;
        bytes
    });
}

/// Each size outside its limits, with the length of the image, with that of the other p + q, and with 12 bytes.
fn wrong_sizes(all: &mut Images) {
    let outside: [&[u8]; 5] =
        [&[0, 17, 18, 128, 255], &[0, 17, 18, 128, 255], &[0, 129, 130, 255], &[4, 5, 128, 255], &[16, 17, 128, 255]];
    for (place, &value) in outside.iter().enumerate().flat_map(|(place, values)| values.iter().map(move |v| (place, v)))
    {
        let mut bytes = raw(&all.roomy());
        bytes[place] = value;
        let asked = 12 + 4 * (usize::from(bytes[0]) + usize::from(bytes[1]));
        for length in [bytes.len(), asked, 12] {
            bytes.resize(length, 0);
            all.put("a size outside its limits", 1, bytes.clone());
        }
    }
    for p in 3..=16 {
        let mut state = State::zeros(Settings { p, q: 2, n: p - 1, r: 1, l: 1, m: 5 });
        all.put("the shortest block", 0, raw(&state));
        state.settings.n -= 1;
        all.put("a block below p - 1", 1, raw(&state));
    }
}

/// M beyond its greatest, and the greatest and one above it for every r and L.
fn wrong_steps(all: &mut Images) {
    for i in 0..24 {
        let mut state = all.roomy();
        let (largest, psi) = (state.settings.greatest_m(), state.psi);
        state.settings.m = [largest + 1, largest + 1, 1 << 30, u32::MAX][i % 4];
        state.psi = if i < 12 { psi } else { 16 };
        all.put("a step beyond the largest", 2, raw(&state));
        if i < 12 {
            state.settings.m = largest;
            all.put("the largest step", 0, raw(&state));
        }
    }
    for (r, l) in every_r_and_l() {
        let (p, q) = (all.random.byte(1, 16), all.random.byte(1, 16));
        let mut state = State::zeros(greatest(p, q, p, r, l));
        all.put("the largest step", 0, raw(&state));
        state.settings.m += 1;
        all.put("one above the largest step", 2, raw(&state));
    }
}

/// ψ of 0 to 15, and B of 31 − L and one more, for every L.
fn every_length_of_samples(all: &mut Images) {
    for l in 0..=MOST_GAIN {
        let (zeros, most) = (State::zeros(Settings { p: 2, q: 1, n: 1, r: 1, l, m: 3 }), 31 - l);
        for (about, number, b, bmax) in [
            ("the largest B", 0, 0, most),
            ("the largest b and B", 0, most, most),
            ("b above B", 9, most + 1, most),
            ("B above 31 - L", 9, 0, most + 1),
        ] {
            all.put(about, number, raw(&State { psi: l, b, bmax, ..zeros.clone() }));
        }
    }
}

/// Each place of a state with all taps at its bound and just beyond it, the others 0.
fn every_place(all: &mut Images) {
    let zeros = State::zeros(Settings { p: 16, q: 16, n: 15, r: 2, l: 0, m: 7 });
    let zeros = State { b: 20, bmax: 20, ..zeros };
    let mut put = |about, number: u8, place: usize, weight: i16, datum: i16| {
        let mut state = zeros.clone();
        (state.weights[place], state.data[place]) = (weight, datum);
        all.put(about, number, raw(&state));
    };
    for sign in [1, -1] {
        for place in 0..32 {
            put("a weight at its bound", 0, place, 16383 * sign, 0);
            put("a weight beyond its bound", 9, place, 16384 * sign, 0);
        }
        // S(16) = 5: |A| is below 2^10.
        for place in 0..32 {
            let (good, bad) = match place {
                0..=14 => (1023, 1024),
                15 => (0, 1),
                _ => (7, 9),
            };
            put("data at their bound", 0, place, 0, good * sign);
            put("data beyond their bound", 9, place, 0, bad * sign);
        }
        (16..32).for_each(|place| put("an even past symbol", 9, place, 0, 6 * sign));
    }
}

/// Each refusal with all later ones present too.
fn in_order(all: &mut Images) {
    let bytes = raw(&all.roomy());
    let changes: [Change<Vec<u8>>; 5] = [
        ("9 alone", 9, |bytes| bytes[5] = 16),
        ("2 before 9", 2, |bytes| bytes[8..12].fill(0xFF)),
        ("8 before 2", 8, |bytes| bytes.push(0)),
        ("1 before 8", 1, |bytes| bytes[3] = 4),
        ("8 before 1", 8, |bytes| bytes.truncate(11)),
    ];
    all.changed(bytes, &changes);
}

/// Good images with bits changed anywhere.
fn changed_bits(all: &mut Images) {
    let mut refused = 0;
    while refused < 120 {
        let mut bytes = raw(&all.sound());
        for _ in 0..all.random.between(1, 3) {
            let place = all.random.below(bytes.len() as u64) as usize;
            bytes[place] ^= 1 << all.random.below(8);
        }
        all.put("changed bits", None, bytes);
        refused += u32::from(all.list[all.list.len() - 1].number != 0);
    }
}
