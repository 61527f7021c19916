//! What blocks hand out with the readings of it, and lists that are turned
//! down.

use crate::block::{run, Inputs, Outputs};
use crate::numbers::bit_length;
use crate::random::Random;
use crate::readings::{
    magnitude, readings, Reading, ReadingInputs, MOST_A, MOST_EXPONENT, MOST_LENGTH,
};
use crate::state::State;
use crate::vectors::spoiled_lists::{self, Spoiler};

/// Four lists, and the length of the lent readings.
#[derive(Clone, Debug, Default, PartialEq, Eq)]
pub struct Lists {
    pub y: Vec<i32>,
    pub xi: Vec<u8>,
    pub z: Vec<i32>,
    pub theta: Vec<u8>,
    /// The length of the lent readings.
    pub readings: usize,
}

/// Y, ξ, Z and θ.
pub type Sample = (i32, u8, i32, u8);

impl Lists {
    /// Lists of one length, the readings too.
    pub fn of(samples: &[Sample]) -> Lists {
        Lists {
            y: samples.iter().map(|sample| sample.0).collect(),
            xi: samples.iter().map(|sample| sample.1).collect(),
            z: samples.iter().map(|sample| sample.2).collect(),
            theta: samples.iter().map(|sample| sample.3).collect(),
            readings: samples.len(),
        }
    }

    /// The lists as they are handed to the operation.
    pub fn inputs(&self) -> ReadingInputs<'_> {
        ReadingInputs {
            y: &self.y,
            xi: &self.xi,
            z: &self.z,
            theta: &self.theta,
        }
    }
}

/// Lists with their readings.
#[derive(Clone, Debug)]
pub struct ReadingsVector {
    /// What the lists are about.
    pub about: &'static str,
    pub lists: Lists,
    pub number: u8,
    pub is_floor: bool,
    /// The bits of the power.
    pub power: u64,
    /// The bits of y and the error of each sample; none where the number is
    /// not 0.
    pub readings: Vec<[u64; 2]>,
}

impl ReadingsVector {
    /// The lengths of the five lists (u16), Y, ξ, Z and θ, the number and,
    /// where it is 0, whether the power is a floor, its bits, and the bits of
    /// each reading.
    pub fn bytes(&self) -> Vec<u8> {
        let Lists {
            y, xi, z, theta, ..
        } = &self.lists;
        let mut bytes = Vec::new();
        for length in [y.len(), xi.len(), z.len(), theta.len(), self.lists.readings] {
            let length = u16::try_from(length).expect("a length has 16 bits");
            bytes.extend(length.to_le_bytes());
        }
        bytes.extend(y.iter().flat_map(|y| y.to_le_bytes()));
        bytes.extend(xi);
        bytes.extend(z.iter().flat_map(|z| z.to_le_bytes()));
        bytes.extend(theta);
        bytes.push(self.number);
        if self.number == 0 {
            bytes.push(u8::from(self.is_floor));
            bytes.extend(self.power.to_le_bytes());
            let bits = self.readings.iter().flatten();
            bytes.extend(bits.flat_map(|bits| bits.to_le_bytes()));
        }
        bytes
    }
}

/// What the readings hold before the call.
const BEFORE: Reading = Reading {
    y: 0.7,
    error: -0.7,
};

struct Collection {
    random: Random,
    list: Vec<ReadingsVector>,
}

impl Collection {
    fn put(&mut self, about: &'static str, lists: &Lists) -> &ReadingsVector {
        let mut lent = vec![BEFORE; lists.readings];
        let answer = readings(&lists.inputs(), &mut lent);
        let mut bits: Vec<[u64; 2]> = lent.iter().map(Reading::bits).collect();
        if answer.is_err() {
            assert!(bits.iter().all(|&bits| bits == BEFORE.bits()));
            bits.clear();
        }
        self.list.push(ReadingsVector {
            about,
            lists: lists.clone(),
            number: answer.err().unwrap_or(0),
            is_floor: answer.is_ok_and(|power| power.is_floor()),
            power: answer.map_or(0, |power| power.value().to_bits()),
            readings: bits,
        });
        self.list.last().expect("a vector")
    }

    fn accept(&mut self, about: &'static str, samples: &[Sample], is_floor: bool) {
        let vector = self.put(about, &Lists::of(samples));
        let answer = (vector.number, vector.is_floor);
        assert_eq!(answer, (0, is_floor), "{about}: {samples:?}");
    }

    fn refuse(&mut self, about: &'static str, lists: &Lists) {
        let number = self.put(about, lists).number;
        assert_eq!(number, 11, "{about}: {lists:?}");
    }

    /// A mantissa of any sign and at most so many binary digits.
    fn mantissa(&mut self, most: i64) -> i32 {
        let end = 1i64 << self.random.between(0, most);
        self.random.between(1 - end, end - 1) as i32
    }

    fn exponent(&mut self) -> u8 {
        self.random.byte(1, MOST_EXPONENT)
    }

    /// A sample with this error.
    fn with_error(&mut self, z: i32, theta: u8) -> Sample {
        (self.mantissa(29), self.exponent(), z, theta)
    }

    /// Any sample, its a cut or not.
    fn any(&mut self) -> Sample {
        let (z, theta) = (self.mantissa(30), self.exponent());
        self.with_error(z, theta)
    }

    /// A sample whose a is not cut.
    fn uncut(&mut self) -> Sample {
        let theta = self.exponent();
        let z = self.mantissa((38 - i64::from(theta)).min(30));
        self.with_error(z, theta)
    }

    fn several(&mut self, count: usize, sample: fn(&mut Collection) -> Sample) -> Vec<Sample> {
        (0..count).map(|_| sample(self)).collect()
    }
}

/// All vectors of readings.
pub fn readings_vectors() -> Vec<ReadingsVector> {
    let mut all = Collection {
        random: Random::new(0x7265_6164),
        list: Vec::new(),
    };
    all.accept("worked example", &worked_lists(), false);
    every_exponent(&mut all);
    zeros(&mut all);
    parts_of_a_unit(&mut all);
    beside_the_cut(&mut all);
    one_cut(&mut all);
    ends_of_the_power(&mut all);
    beside_a_half(&mut all);
    every_length(&mut all);
    any_lists(&mut all);
    from_blocks(&mut all);
    lengths_turned_down(&mut all);
    each_list_alone(&mut all);
    exponents_turned_down(&mut all);
    mantissas_turned_down(&mut all);
    two_causes(&mut all);
    all.list
}

/// The specification's example: samples 0, 1 and 7 of its longer example.
pub fn worked_lists() -> [Sample; 3] {
    [
        (0, 3, -201_326_592, 4),
        (300_937, 4, 66_807_927, 4),
        (-18_193_141, 3, -116_024_587, 3),
    ]
}

/// For each ξ the ends of Y, and for each θ the ends of Z and of what is not
/// cut.
fn every_exponent(all: &mut Collection) {
    for exponent in 1..=MOST_EXPONENT {
        let (y, z) = ((1 << 29) - 1, (1 << 30) - 1);
        let mut samples: Vec<Sample> = [y, -y, 1, -1, y - 1, 1 - y, 1 << 28, -3]
            .into_iter()
            .map(|y| (y, exponent, all.random.between(-9, 9) as i32, 9))
            .collect();
        all.accept("Y at its ends", &samples, false);
        for (sample, z) in samples
            .iter_mut()
            .zip([z, -z, z - 1, 1 - z, 1 << 29, 1, -1])
        {
            (sample.2, sample.3) = (z, exponent);
        }
        all.accept("Z at its ends", &samples, exponent > 8);
    }
}

/// A Y, a Z, or both are 0, with each exponent; the power is 0, or not.
fn zeros(all: &mut Collection) {
    for exponent in 1..=MOST_EXPONENT {
        let other = all.exponent();
        let nothing = (0, exponent, 0, other);
        all.accept("all is 0", &[nothing], false);
        let samples = [(0, other, -7, 20), nothing, (-5, exponent, 0, exponent)];
        all.accept("zeros among others", &samples, false);
    }
    all.accept("all is 0", &[(0, 1, 0, 24); 128], false);
    // Errors below 1/256 have a = 0.
    for theta in 1..=21 {
        let most = (1 << (22 - theta)) - 1;
        let samples = [most, -most, 1, -1].map(|z| all.with_error(z, theta));
        all.accept("a power of 0", &samples, false);
    }
}

/// 256·|error| is a whole number, or a little more or less, with both signs.
fn parts_of_a_unit(all: &mut Collection) {
    for theta in 1..=21 {
        let unit = 1i64 << (22 - theta);
        let most = ((1 << 30) / unit).min(65_536) - 1;
        let a = 1 + all.random.below(most as u64 - 1) as i64;
        for part in [0, 1, unit / 2, -1] {
            let z = (a * unit + part) as i32;
            let samples = [z, -z].map(|z| all.with_error(z, theta));
            all.accept("parts of a unit", &samples, false);
        }
        let sample = all.with_error((-a * unit - 1) as i32, theta);
        all.accept("a part of a unit", &[sample], false);
    }
}

/// The least and the greatest |Z| with this a and θ, where there are any.
fn with_a(a: i64, theta: u8) -> Option<[i32; 2]> {
    let fits = |z: i64| z < 1 << 30 && magnitude(z as i32, theta) == i128::from(a);
    let least = match theta {
        0..=22 => a << (22 - theta),
        _ => a >> (theta - 22),
    };
    let most = match theta {
        0..=22 => ((a + 1) << (22 - theta)) - 1,
        _ => least,
    };
    (fits(least) && fits(most)).then_some([least as i32, most as i32])
}

/// a of 65532 to 65540 for each θ that has it, alone.
fn beside_the_cut(all: &mut Collection) {
    for theta in 8..=MOST_EXPONENT {
        for a in [65_532, 65_534, 65_535, 65_536, 65_537, 65_540] {
            let sign = all.random.sign() as i32;
            let Some([least, most]) = with_a(a, theta) else {
                continue;
            };
            let cut = i128::from(a) > MOST_A;
            let samples = [least, -most].map(|z| all.with_error(sign * z, theta));
            all.accept("a beside 65535", &samples, cut);
        }
    }
}

/// One a of 65535, 65536 or the greatest there is, at the first, a middle or
/// the last place.
fn one_cut(all: &mut Collection) {
    for (count, place) in [
        (1, 0),
        (2, 0),
        (2, 1),
        (5, 2),
        (128, 0),
        (127, 126),
        (128, 127),
    ] {
        let errors = [
            ("one a of 65535", 65_535, 22),
            ("one a of 65536", -65_536, 22),
            ("the greatest error", 1 - (1 << 30), MOST_EXPONENT),
        ];
        for (about, z, theta) in errors {
            let mut samples = all.several(count, Collection::uncut);
            samples[place] = all.with_error(z, theta);
            all.accept(about, &samples, z != 65_535);
        }
    }
}

/// The least power above 0, and the greatest, as a mean and as a floor.
fn ends_of_the_power(all: &mut Collection) {
    for count in [1, 2, 3, 100, 127, 128] {
        let mut samples = vec![(0, 24, 0, 1); count];
        samples[count - 1] = all.with_error(-(1 << 21), 1);
        all.accept("the least power", &samples, false);
        for (about, z, theta, is_floor) in [
            ("the greatest mean", 65_535, 22, false),
            ("the greatest mean", 1 - (1 << 30), 8, false),
            ("the greatest floor", (1 << 30) - 1, 24, true),
        ] {
            let samples = vec![all.with_error(z, theta); count];
            all.accept(about, &samples, is_floor);
        }
    }
}

/// The part of an odd number by which a quotient of 53 digits is more than its
/// digits; `sum` is not less than that number.
fn remainder(sum: i128, odd: i128) -> i128 {
    let missing = 53 - bit_length(sum / odd);
    (sum << missing) % odd
}

/// Quotients as close to the middle of two neighbours as N lets them be, on
/// either side. None is right in the middle: with a power of two for N there
/// are at most 39 digits, and with another a middle is never reached.
fn beside_a_half(all: &mut Collection) {
    for n in [3usize, 5, 6, 7, 11, 24, 63, 100, 127] {
        let odd = n as i128 >> n.trailing_zeros();
        for wanted in [odd / 2, odd / 2 + 1] {
            let samples = loop {
                let samples = all.several(n, Collection::uncut);
                let magnitudes = samples.iter().map(|sample| magnitude(sample.2, sample.3));
                let sum: i128 = magnitudes.map(|a| a * a).sum();
                if sum >= odd && remainder(sum, odd) == wanted {
                    break samples;
                }
            };
            all.accept("a quotient beside a half", &samples, false);
        }
    }
}

/// N from 1 to 128.
fn every_length(all: &mut Collection) {
    for n in 1..=MOST_LENGTH {
        let samples = all.several(n, Collection::uncut);
        all.accept("every length", &samples, false);
    }
}

/// Any accepted lists.
fn any_lists(all: &mut Collection) {
    for _ in 0..80 {
        let count = all.random.between(1, 12) as usize;
        let samples = match all.random.chance(1, 2) {
            true => all.several(count, Collection::any),
            false => all.several(count, Collection::uncut),
        };
        let is_cut = |sample: &Sample| magnitude(sample.2, sample.3) > MOST_A;
        let is_floor = samples.iter().any(is_cut);
        all.accept("any lists", &samples, is_floor);
    }
}

/// What an arbitrary block on a state hands out, if it is accepted.
pub fn handed_out(random: &mut Random, state: &mut State) -> Option<Lists> {
    let settings = state.settings;
    let (loudness, aim) = (random.loudness(), random.aim());
    let (samples, gains) = random.samples(&settings, loudness);
    let training = random.training(&settings, aim);
    let inputs = Inputs {
        samples: &samples,
        gains: &gains,
        training: &training,
    };
    let n = usize::from(settings.n);
    let mut outputs = Outputs::zeros(n);
    (run(state, inputs, &mut outputs) == 0).then_some(Lists {
        y: outputs.y,
        xi: outputs.xi,
        z: outputs.z,
        theta: outputs.theta,
        readings: n,
    })
}

/// Means and floors of blocks on sound states, as many of each.
fn from_blocks(all: &mut Collection) {
    let mut left = [40; 2];
    while left != [0; 2] {
        let random = &mut all.random;
        let mut settings = random.settings();
        settings.n = settings.n.min(1.max(settings.p - 1).max(40));
        let mut state = match random.chance(1, 4) {
            true => random.falling_state(settings),
            false => random.sound_state(settings),
        };
        let Some(lists) = handed_out(random, &mut state) else {
            continue;
        };
        let cut = lists.inputs().magnitudes().iter().any(|&a| a > MOST_A);
        let left = &mut left[usize::from(cut)];
        if *left > 0 {
            assert_eq!(all.put("handed out by a block", &lists).number, 0);
            *left -= 1;
        }
    }
}

/// Lists of one length that is 0 or above 128; some are 1 to 128 to whoever
/// counts in a byte.
fn lengths_turned_down(all: &mut Collection) {
    for count in [0, 129, 130, 192, 255, 256, 257, 384, 1024] {
        let samples = all.several(count, Collection::uncut);
        all.refuse("a length of none", &Lists::of(&samples));
    }
}

/// Each list alone shorter, longer or empty, by one or more.
fn each_list_alone(all: &mut Collection) {
    for count in [2, 7, 128] {
        for place in 0..5 {
            for length in [count - 1, count + 1, 0, count + 128] {
                let samples = all.several(count, Collection::uncut);
                let mut lists = Lists::of(&samples);
                spoiled_lists::resize(&mut lists, place, length);
                all.refuse("one list of another length", &lists);
            }
        }
    }
    for place in 0..5 {
        let mut lists = Lists::of(&[(1, 1, 1, 1)]);
        (0..5)
            .filter(|&other| other != place)
            .for_each(|other| spoiled_lists::resize(&mut lists, other, 0));
        all.refuse("one list that is not empty", &lists);
        let samples = all.several(3, Collection::uncut);
        let mut lists = Lists::of(&samples);
        spoiled_lists::resize(&mut lists, place, 3 + 256);
        all.refuse("one list longer by 256", &lists);
        let mut lists = Lists::of(&samples);
        spoiled_lists::resize(&mut lists, place, 2);
        spoiled_lists::resize(&mut lists, (place + 1) % 5, 2);
        all.refuse("two lists of another length", &lists);
    }
}

/// Samples one of which is spoiled: the only one, the first, a middle and the
/// last.
fn at_each_place(all: &mut Collection, about: &'static str, spoil: impl Fn(&mut Sample)) {
    for (count, place) in [(1, 0), (2, 0), (5, 2), (128, 127)] {
        let mut samples = all.several(count, Collection::uncut);
        spoil(&mut samples[place]);
        all.refuse(about, &Lists::of(&samples));
    }
}

/// ξ or θ of 0, 25, 255 and others, also of a zero.
fn exponents_turned_down(all: &mut Collection) {
    for exponent in [0, 25, 255] {
        at_each_place(all, "a xi outside 1 to 24", |sample| sample.1 = exponent);
        at_each_place(all, "a theta outside 1 to 24", |sample| sample.3 = exponent);
    }
    for exponent in [0, 25, 26, 31, 32, 128, 254] {
        let zeros = [(0, exponent, 0, 1), (0, 1, 0, exponent)];
        for zero in zeros {
            all.refuse("an exponent of a zero", &Lists::of(&[zero]));
        }
    }
}

/// |Y| of 2^29 and more, |Z| of 2^30 and more.
fn mantissas_turned_down(all: &mut Collection) {
    for (end, others) in [(1 << 29, 1 << 30), (1 << 30, (1 << 30) + (1 << 29))] {
        let is_y = end == 1 << 29;
        let spoil = |sample: &mut Sample, a: i32| match is_y {
            true => sample.0 = a,
            false => sample.2 = a,
        };
        let about = ["a Z too large", "a Y too large"][usize::from(is_y)];
        for a in [end, -end, i32::MIN] {
            at_each_place(all, about, |sample| spoil(sample, a));
        }
        for a in [end + 1, -end - 1, others, i32::MAX, i32::MIN + 1] {
            let mut sample = all.uncut();
            spoil(&mut sample, a);
            all.refuse(about, &Lists::of(&[sample]));
        }
    }
}

/// Two of the causes at once.
fn two_causes(all: &mut Collection) {
    let list = &spoiled_lists::ALL;
    for (at, one) in list.iter().enumerate() {
        for other in &list[at + 1..] {
            let samples = all.several(4, Collection::uncut);
            let mut lists = Lists::of(&samples);
            [one, other]
                .into_iter()
                .for_each(|Spoiler { spoil, .. }| spoil(&mut lists));
            all.refuse("two causes", &lists);
        }
    }
}
