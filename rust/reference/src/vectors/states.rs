//! Settings and states for the vectors: at their bounds and beyond them.

use crate::image::header;
use crate::numbers::scale_count;
use crate::random::Random;
use crate::settings::{Rules, Settings, MOST_GAIN, MOST_R};
use crate::state::{State, SLOTS};
use std::cmp::Ordering;

/// Settings with the greatest M.
pub fn greatest(p: u8, q: u8, n: u8, r: u8, l: u8) -> Settings {
    let settings = Settings { p, q, n, r, l, m: 0 };
    settings.with_m(settings.greatest_m())
}

/// Every r with every L.
pub fn every_r_and_l() -> impl Iterator<Item = (u8, u8)> {
    super::pairs(0..=MOST_R, 0..=MOST_GAIN)
}

/// Other sizes: `p17 n128` are p = 17 and N = 128.
pub fn resized(mut settings: Settings, sizes: &str) -> Settings {
    for size in sizes.split(' ') {
        let place = match &size[..1] {
            "p" => &mut settings.p,
            "q" => &mut settings.q,
            "n" => &mut settings.n,
            "r" => &mut settings.r,
            _ => &mut settings.l,
        };
        *place = size[1..].parse().expect("a size");
    }
    settings
}

/// The greatest stored sample with p, b and B.
pub fn most_stored(p: u8, b: u8, bmax: u8) -> i16 {
    let room = 15 + i32::from(b) - i32::from(bmax) - scale_count(p);
    (1 << room.max(0)) - 1
}

/// A state's bytes as in an image, sound or not, spare slots among them.
pub fn raw(state: &State) -> Vec<u8> {
    let places = state.weights.iter().chain(&state.data);
    header(state).into_iter().chain(places.flat_map(|a| a.to_le_bytes())).collect()
}

/// A state with each place at its bound, with the signs of its weight and of its datum.
pub fn at_bounds(settings: Settings, psi: u8, mut signs: impl FnMut(usize) -> [i64; 2]) -> State {
    let b = 31 - settings.l;
    let mut state = State { psi, b, bmax: b, ..State::zeros(settings) };
    for place in 0..settings.taps() {
        let [weight, datum] = signs(place).map(|sign| sign as i16);
        let bound = match (place + 1).cmp(&usize::from(settings.p)) {
            Ordering::Less => most_stored(settings.p, b, b),
            Ordering::Equal => 0,
            Ordering::Greater => settings.end_symbol() as i16,
        };
        (state.weights[place], state.data[place]) = (16383 * weight, bound * datum);
    }
    state
}

/// Makes a state with p of at least 2 and L of at least 1 unsound.
pub type Unsound = fn(&mut State, &mut Random);

/// The ways, each with the vectors that have it: records (r), images (i).
pub const UNSOUND: [(&str, Unsound); 40] = [
    ("ri", |s, _| s.psi = 16),
    ("i", |s, _| s.psi = 128),
    ("ri", |s, _| s.psi = 255),
    ("ri", |s, _| s.b = s.bmax + 1),
    ("ri", |s, _| s.b = 255),
    ("ri", |s, _| (s.b, s.bmax) = (32 - s.settings.l, 32 - s.settings.l)),
    ("ri", |s, _| s.bmax = 255),
    ("ri", |s, _| (s.b, s.bmax) = (255, 255)),
    ("ri", |s, _| s.weights[0] = 16384),
    ("ri", |s, _| s.weights[0] = -16384),
    ("i", |s, random| s.weights[any(s.settings, random)] = 16384),
    ("i", |s, random| s.weights[any(s.settings, random)] = -32768),
    ("i", |s, _| s.weights[last(s.settings)] = -16384),
    ("i", |s, _| s.weights[last(s.settings)] = 32767),
    ("r", |s, _| s.weights[last(s.settings)] = 16384),
    ("r", |s, _| s.weights[last(s.settings)] = -32768),
    ("r", |s, _| s.weights[p(s.settings)] = -16384),
    ("r", |s, random| s.weights[any(s.settings, random)] = 32767),
    ("ri", |s, _| s.data[0] = too_large(s)),
    ("ri", |s, _| s.data[p(s.settings) - 2] = -too_large(s)),
    ("i", |s, _| s.data[0] = -too_large_alone(s, 3, 6)),
    ("r", |s, _| s.data[0] = too_large_alone(s, 3, 6)),
    ("i", |s, _| s.data[0] = too_large_alone(s, 0, 16)),
    ("r", |s, _| s.data[0] = -too_large_alone(s, 0, 16)),
    ("ri", |s, _| s.data[0] = -32768),
    ("ri", |s, _| s.data[p(s.settings) - 1] = 1),
    ("ri", |s, _| s.data[p(s.settings) - 1] = -32768),
    ("ri", |s, _| s.data[p(s.settings)] = 2),
    ("ri", |s, _| s.data[p(s.settings)] = -2),
    ("ri", |s, _| s.data[last(s.settings)] = (2 << s.settings.r) + 1),
    ("ri", |s, _| s.data[last(s.settings)] = -(2 << s.settings.r) - 1),
    ("i", |s, _| s.data[last(s.settings)] = 256),
    ("i", |s, _| s.data[last(s.settings)] = -32767),
    ("ri", |s, _| s.data[last(s.settings)] = -32768),
    ("i", |s, _| s.weights[p(s.settings)] = -32768),
    // Spare slots.
    ("r", |s, _| s.weights[last(s.settings) + 1] = 1),
    ("r", |s, _| s.weights[SLOTS - 1] = -1),
    ("r", |s, _| s.data[last(s.settings) + 1] = 1),
    ("r", |s, _| s.data[SLOTS - 1] = -32768),
    ("r", |s, random| s.data[any_spare(s.settings, random)] = 256),
];

fn p(s: Settings) -> usize {
    s.p.into()
}

/// The last place that is not spare.
fn last(s: Settings) -> usize {
    s.taps() - 1
}

/// Any place that is not spare.
fn any(s: Settings, random: &mut Random) -> usize {
    random.below(s.taps() as u64) as usize
}

fn any_spare(s: Settings, random: &mut Random) -> usize {
    s.taps() + random.below((SLOTS - s.taps()) as u64) as usize
}

/// The least stored sample that is too large, with b = B.
fn too_large(s: &mut State) -> i16 {
    s.b = s.bmax;
    most_stored(s.settings.p, s.b, s.bmax) + 1
}

/// The same with other b and B, where no sample is stored.
fn too_large_alone(s: &mut State, b: u8, bmax: u8) -> i16 {
    let samples = p(s.settings) - 1;
    s.data[..samples].fill(0);
    (s.b, s.bmax) = (b, bmax);
    most_stored(s.settings.p, b, bmax) + 1
}
