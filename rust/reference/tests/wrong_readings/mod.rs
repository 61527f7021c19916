//! The readings in the machine's f64, written a second time for the vectors,
//! which must find each of its faults.

use reference::vectors::{Lists, Sample};
use std::ops::{Range, RangeInclusive};

/// The causes of 11, one by one.
pub const CAUSES: [&str; 13] = [
    "the lists are empty",
    "the lists have more than 128 entries",
    "Y has another length",
    "ξ has another length",
    "Z has another length",
    "θ has another length",
    "the readings have another length",
    "some Z has a magnitude of 2^30 or more",
    "some ξ is 0",
    "some ξ is above 24",
    "some θ is 0",
    "some θ is above 24",
    "some Y has a magnitude of 2^29 or more",
];

/// What is answered: the number, whether the power is a floor, its bits.
pub type Answer = (u8, bool, u64);

/// The bits of y and of the error.
pub type Bits = [u64; 2];

/// A way to read lists.
pub struct Way {
    /// A cause that goes unseen.
    unseen: &'static str,
    /// What is seen of a length, and which lengths pass.
    length: fn(usize) -> usize,
    lengths: RangeInclusive<usize>,
    /// The places that are examined, of so many, and whether those of a 0 are not.
    places: fn(usize) -> Range<usize>,
    skips_zeros: bool,
    /// What is seen of a magnitude, and what passes.
    size: fn(i32) -> i64,
    most_y: i64,
    most_z: i64,
    xi: RangeInclusive<u8>,
    theta: RangeInclusive<u8>,
    /// What a refusal answers and what it does to the readings.
    refusal: Answer,
    spoils: fn(&Lists, &mut [Bits]),
    /// The sample that is read, what is made of its reading, and what of all readings.
    read: fn(Sample) -> Sample,
    shown: fn([f64; 2]) -> [f64; 2],
    arranged: fn(&mut [Bits]),
    /// The sample whose error is measured, a of 256 times the error, a brought to its end, and its square.
    measured: fn(Sample) -> Sample,
    rounded: fn(f64) -> f64,
    brought: fn(f64) -> f64,
    square: fn(f64) -> f64,
    /// The power by the squares, and whether it is a floor by the right a.
    power: fn(&[f64]) -> f64,
    is_floor: fn(&[f64]) -> bool,
}

impl Way {
    pub fn right() -> Way {
        Way {
            unseen: "",
            length: |length| length,
            lengths: 1..=128,
            places: |count| 0..count,
            skips_zeros: false,
            size: |a| i64::from(a).abs(),
            most_y: (1 << 29) - 1,
            most_z: (1 << 30) - 1,
            xi: 1..=24,
            theta: 1..=24,
            refusal: (11, false, 0),
            spoils: |_, _| {},
            read: |sample| sample,
            shown: |reading| reading,
            arranged: |_| {},
            measured: |sample| sample,
            rounded: |error| error.abs().floor(),
            brought: |a| a.min(65_535.0),
            square: |a| a * a,
            power: mean,
            is_floor: |a| a.iter().any(|&a| a > 65_535.0),
        }
    }

    /// The right way with a fault or without a cause.
    pub fn with(name: &'static str) -> Way {
        let mut way = Way { unseen: name, ..Way::right() };
        let fault = FAULTS.iter().find(|(fault, _)| *fault == name);
        fault.iter().for_each(|(_, change)| change(&mut way));
        way
    }
}

/// What can be wrong beside a cause that goes unseen.
pub const FAULTS: [(&str, fn(&mut Way)); 68] = [
    ("a of 65535 counts as cut", |w| w.is_floor = |a| a.iter().any(|&a| a >= 65_535.0)),
    ("a cut goes untold", |w| w.is_floor = |_| false),
    ("every power is a floor", |w| w.is_floor = |_| true),
    ("a cut of the first sample goes untold", |w| w.is_floor = |a| a[1..].iter().any(|&a| a > 65_535.0)),
    ("a cut of the last sample goes untold", |w| w.is_floor = |a| a.iter().rev().skip(1).any(|&a| a > 65_535.0)),
    ("a is not brought to 65535", |w| w.brought = |a| a),
    ("a is brought to 65536", |w| w.brought = |a| a.min(65_536.0)),
    ("a is brought to 32767", |w| w.brought = |a| a.min(32_767.0)),
    ("a has 16 bits", |w| w.brought = |a| a % 65_536.0),
    ("squares have 32 bits", |w| w.square = |a| (a as u32).wrapping_mul(a as u32) as i32 as f64),
    ("the sum of a, not of a²", |w| w.square = |a| a),
    ("the sum has 32 bits", |w| w.power = |s| sum(s) % 4_294_967_296.0 / divisor(s)),
    ("the sum leaves the first sample out", |w| w.power = |s| sum(&s[1..]) / divisor(s)),
    ("the sum leaves the last sample out", |w| w.power = |s| sum(&s[..s.len() - 1]) / divisor(s)),
    ("divided by 65535·N", |w| w.power = |s| sum(s) / (65_535.0 * s.len() as f64)),
    ("divided by 65536·128", |w| w.power = |s| sum(s) / (65_536.0 * 128.0)),
    ("divided by 65536", |w| w.power = |s| sum(s) / 65_536.0),
    ("divided by 256·N", |w| w.power = |s| sum(s) / (256.0 * s.len() as f64)),
    ("divided by 65536·(N + 1)", |w| w.power = |s| sum(s) / (divisor(s) + 65_536.0)),
    ("each square is divided", |w| w.power = |s| s.iter().map(|square| square / divisor(s)).sum()),
    ("times the reciprocal of N", |w| w.power = |s| sum(s) / 65_536.0 * (1.0 / s.len() as f64)),
    ("the quotient is cut", |w| w.power = |s| if beyond(s) > 0.0 { mean(s).next_down() } else { mean(s) }),
    ("the quotient is rounded up", |w| w.power = |s| if beyond(s) < 0.0 { mean(s).next_up() } else { mean(s) }),
    ("the quotient has 24 digits", |w| w.power = |s| f64::from(mean(s) as f32)),
    ("a power of 0 is −0", |w| w.power = |s| if sum(s) == 0.0 { -0.0 } else { mean(s) }),
    ("the error is rounded down before its magnitude is taken", |w| w.rounded = |error| error.floor().abs()),
    ("a is rounded to the nearest", |w| w.rounded = |error| error.abs().round()),
    ("a is rounded up", |w| w.rounded = |error| error.abs().ceil()),
    ("a is not rounded", |w| w.rounded = f64::abs),
    ("a by θ − 21", |w| w.measured = |(y, xi, z, theta)| (y, xi, z, theta + 1)),
    ("a by θ − 23", |w| w.measured = |(y, xi, z, theta)| (y, xi, z, theta - 1)),
    ("a with ξ", |w| w.measured = |(y, xi, z, _)| (y, xi, z, xi)),
    ("a of y", |w| w.measured = |(y, xi, _, _)| (y, xi, y, xi)),
    ("y by ξ − 29", |w| w.read = |(y, xi, z, theta)| (y, xi + 1, z, theta)),
    ("y by ξ − 31", |w| w.read = |(y, xi, z, theta)| (y, xi - 1, z, theta)),
    ("the error by θ − 29", |w| w.read = |(y, xi, z, theta)| (y, xi, z, theta + 1)),
    ("the error by θ − 31", |w| w.read = |(y, xi, z, theta)| (y, xi, z, theta - 1)),
    ("y with θ", |w| w.read = |(y, _, z, theta)| (y, theta, z, theta)),
    ("the error with ξ", |w| w.read = |(y, xi, z, _)| (y, xi, z, xi)),
    ("y and the error change places", |w| w.read = |(y, xi, z, theta)| (z, theta, y, xi)),
    ("the error has no sign", |w| w.read = |(y, xi, z, theta)| (y, xi, z.abs(), theta)),
    ("y has no sign", |w| w.read = |(y, xi, z, theta)| (y.abs(), xi, z, theta)),
    ("readings have 24 digits", |w| w.shown = |reading| reading.map(|a| f64::from(a as f32))),
    ("a y of 0 is −0", |w| w.shown = |[y, error]| [if y == 0.0 { -0.0 } else { y }, error]),
    ("an error of 0 is −0", |w| w.shown = |[y, error]| [y, if error == 0.0 { -0.0 } else { error }]),
    ("readings from the last to the first", |w| w.arranged = |readings| readings.reverse()),
    ("a ξ of 24 is turned down", |w| w.xi = 1..=23),
    ("a ξ of 1 is turned down", |w| w.xi = 2..=24),
    ("a θ of 24 is turned down", |w| w.theta = 1..=23),
    ("a θ of 1 is turned down", |w| w.theta = 2..=24),
    ("a ξ or θ of 25 passes", |w| (w.xi, w.theta) = (1..=25, 1..=25)),
    ("a |Y| of 2^29 − 1 is turned down", |w| w.most_y -= 1),
    ("a |Y| below 2^30 passes", |w| w.most_y = (1 << 30) - 1),
    ("a |Z| of 2^30 passes", |w| w.most_z += 1),
    ("a |Z| of 2^30 − 1 is turned down", |w| w.most_z -= 1),
    ("magnitudes have 32 bits, so that −2^31 passes", |w| w.size = |a| i64::from(a.wrapping_abs())),
    ("negative numbers go unseen", |w| w.size = |a| i64::from(a.max(0))),
    ("lengths have 8 bits", |w| w.length = |length| length % 256),
    ("128 samples are turned down", |w| w.lengths = 1..=127),
    ("129 samples pass", |w| w.lengths = 1..=129),
    ("1 sample is turned down", |w| w.lengths = 2..=128),
    ("only the first sample is examined", |w| w.places = |count| 0..count.min(1)),
    ("only the last sample is examined", |w| w.places = |count| count.saturating_sub(1)..count),
    ("a sample that is 0 is not examined", |w| w.skips_zeros = true),
    ("10 for 11", |w| w.refusal.0 = 10),
    ("a refusal has a power", |w| w.refusal.2 = 1.0f64.to_bits()),
    ("a refusal writes zeros", |w| w.spoils = |_, readings| readings.fill([0; 2])),
    ("readings are written before a refusal", |w| w.spoils = write_up_to_a_cause),
];

fn sum(squares: &[f64]) -> f64 {
    squares.iter().sum()
}

fn divisor(squares: &[f64]) -> f64 {
    65_536.0 * squares.len() as f64
}

fn mean(squares: &[f64]) -> f64 {
    sum(squares) / divisor(squares)
}

/// By how much the rounded mean times its divisor is above the sum.
fn beyond(squares: &[f64]) -> f64 {
    mean(squares).mul_add(divisor(squares), -sum(squares))
}

fn write_up_to_a_cause(lists: &Lists, readings: &mut [Bits]) {
    let right = Way::right();
    let good = |place: &usize| sample_causes(sample(lists, *place), &right).next().is_none();
    for place in (0..readings.len()).take_while(good) {
        readings[place] = reading(sample(lists, place)).map(f64::to_bits);
    }
}

/// The sample at a place, with a 1 where a list has nothing there.
fn sample(lists: &Lists, place: usize) -> Sample {
    fn at<T: Copy + From<bool>>(list: &[T], place: usize) -> T {
        list.get(place).copied().unwrap_or(T::from(true))
    }
    (at(&lists.y, place), at(&lists.xi, place), at(&lists.z, place), at(&lists.theta, place))
}

/// y and the error.
fn reading((y, xi, z, theta): Sample) -> [f64; 2] {
    let power_of_two = |exponent: u8| f64::from_bits((1023 - 30 + u64::from(exponent)) << 52);
    [f64::from(y) * power_of_two(xi), f64::from(z) * power_of_two(theta)]
}

fn lengths(lists: &Lists) -> [usize; 5] {
    [lists.y.len(), lists.xi.len(), lists.z.len(), lists.theta.len(), lists.readings]
}

/// The length that most lists have.
fn common(lengths: &[usize; 5]) -> usize {
    let count = |length: &usize| lengths.iter().filter(|other| *other == length).count();
    *lengths.iter().max_by_key(|length| count(length)).expect("five lists")
}

/// The causes that hold, of some that stand together.
fn held<const COUNT: usize>(first: usize, holds: [bool; COUNT]) -> impl Iterator<Item = &'static str> {
    let causes = CAUSES[first..].iter().zip(holds);
    causes.filter(|(_, holds)| *holds).map(|(cause, _)| *cause)
}

/// The causes that one sample gives.
fn sample_causes((y, xi, z, theta): Sample, way: &Way) -> impl Iterator<Item = &'static str> {
    let examined = |mantissa: i32| mantissa != 0 || !way.skips_zeros;
    let holds = [
        (way.size)(z) > way.most_z,
        examined(y) && xi < *way.xi.start(),
        examined(y) && xi > *way.xi.end(),
        examined(z) && theta < *way.theta.start(),
        examined(z) && theta > *way.theta.end(),
        (way.size)(y) > way.most_y,
    ];
    held(7, holds)
}

/// The causes of 11 that hold, each once.
pub fn causes(lists: &Lists, way: &Way) -> Vec<&'static str> {
    let seen = lengths(lists).map(way.length);
    let n = common(&seen);
    let mut causes: Vec<&str> = held(0, [n < *way.lengths.start(), n > *way.lengths.end()]).collect();
    causes.extend(held(2, seen.map(|length| length != n)));
    let longest = lengths(lists).into_iter().max().unwrap_or(0);
    for place in (way.places)(longest) {
        causes.extend(sample_causes(sample(lists, place), way));
    }
    CAUSES.into_iter().filter(|cause| causes.contains(cause)).collect()
}

/// a of each of `n` samples before it is brought to its end.
fn magnitudes(lists: &Lists, n: usize, way: &Way) -> Vec<f64> {
    let error = |place: usize| 256.0 * reading((way.measured)(sample(lists, place)))[1];
    (0..n).map(|place| (way.rounded)(error(place))).collect()
}

/// Reads lists in a way.
pub fn wrong_readings(lists: &Lists, readings: &mut [Bits], way: &Way) -> Answer {
    if causes(lists, way).iter().any(|&cause| cause != way.unseen) {
        (way.spoils)(lists, readings);
        return way.refusal;
    }
    for (place, bits) in readings.iter_mut().enumerate() {
        *bits = (way.shown)(reading((way.read)(sample(lists, place)))).map(f64::to_bits);
    }
    (way.arranged)(readings);
    let n = common(&lengths(lists).map(way.length));
    let a = magnitudes(lists, n, way);
    let squares: Vec<f64> = a.iter().map(|&a| (way.square)((way.brought)(a))).collect();
    let is_floor = (way.is_floor)(&magnitudes(lists, n, &Way::right()));
    (0, is_floor, (way.power)(&squares).to_bits())
}
