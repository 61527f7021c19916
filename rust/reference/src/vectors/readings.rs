//! What blocks hand out with the readings of it, and lists that are turned down.

use super::spoiled_lists::{resize, SPOILERS};
use super::{pairs, Made, Making};
use crate::block::{run, Inputs, Outputs};
use crate::numbers::bit_length;
use crate::random::Random;
use crate::readings::{magnitude, readings, Reading, ReadingInputs, MOST_A, MOST_EXPONENT, MOST_LENGTH};
use crate::state::State;

/// Four lists, and the length of the lent readings.
#[derive(Clone, Debug, Default, PartialEq, Eq)]
pub struct Lists {
    pub y: Vec<i32>,
    pub xi: Vec<u8>,
    pub z: Vec<i32>,
    pub theta: Vec<u8>,
    /// The length of the lent readings.
    pub readings: usize,
}

/// Y, ξ, Z and θ.
pub type Sample = (i32, u8, i32, u8);

impl Lists {
    /// Lists of one length, the readings too.
    pub fn of(samples: &[Sample]) -> Lists {
        Lists {
            y: samples.iter().map(|sample| sample.0).collect(),
            xi: samples.iter().map(|sample| sample.1).collect(),
            z: samples.iter().map(|sample| sample.2).collect(),
            theta: samples.iter().map(|sample| sample.3).collect(),
            readings: samples.len(),
        }
    }

    /// The lists as they are handed to the operation.
    pub fn inputs(&self) -> ReadingInputs<'_> {
        ReadingInputs { y: &self.y, xi: &self.xi, z: &self.z, theta: &self.theta }
    }
}

/// Lists with their readings.
#[derive(Clone, Debug)]
pub struct ReadingsVector {
    /// What the lists are about.
    pub about: &'static str,
    pub lists: Lists,
    pub number: u8,
    pub is_floor: bool,
    /// The bits of the power.
    pub power: u64,
    /// The bits of y and the error of each sample; none where the number is not 0.
    pub readings: Vec<[u64; 2]>,
}

impl ReadingsVector {
    /// The bytes in the file.
    pub fn bytes(&self) -> Vec<u8> {
        let Lists { y, xi, z, theta, readings } = &self.lists;
        let lengths = [y.len(), xi.len(), z.len(), theta.len(), *readings];
        let mut bytes = lengths.map(|length| u16::try_from(length).expect("16 bits").to_le_bytes()).concat();
        bytes.extend(y.iter().flat_map(|y| y.to_le_bytes()));
        bytes.extend(xi);
        bytes.extend(z.iter().flat_map(|z| z.to_le_bytes()));
        bytes.extend(theta);
        bytes.push(self.number);
        if self.number == 0 {
            bytes.push(self.is_floor.into());
            bytes.extend(self.power.to_le_bytes());
            bytes.extend(self.readings.iter().flatten().flat_map(|bits| bits.to_le_bytes()));
        }
        bytes
    }
}

/// What the readings hold before the call.
const BEFORE: Reading = Reading { y: 0.7, error: -0.7 };

impl Made for ReadingsVector {
    type Lent = Lists;

    fn of(about: &'static str, lists: Lists) -> ReadingsVector {
        let mut lent = vec![BEFORE; lists.readings];
        let answer = readings(&lists.inputs(), &mut lent);
        let mut bits: Vec<[u64; 2]> = lent.iter().map(Reading::bits).collect();
        if answer.is_err() {
            assert!(bits.iter().all(|&bits| bits == BEFORE.bits()));
            bits.clear();
        }
        let (number, is_floor) = (answer.err().unwrap_or(0), answer.is_ok_and(|power| power.is_floor()));
        let power = answer.map_or(0, |power| power.value().to_bits());
        ReadingsVector { about, lists, number, is_floor, power, readings: bits }
    }

    fn answer(&self) -> u8 {
        self.number + u8::from(self.is_floor)
    }
}

impl<S: AsRef<[Sample]>> From<S> for Lists {
    fn from(samples: S) -> Lists {
        Lists::of(samples.as_ref())
    }
}

type Readings = Making<ReadingsVector>;

impl Readings {
    /// A mantissa of any sign and at most so many binary digits.
    fn mantissa(&mut self, most: i64) -> i32 {
        let end = 1i64 << self.random.between(0, most);
        self.random.between(1 - end, end - 1) as i32
    }

    fn exponent(&mut self) -> u8 {
        self.random.byte(1, MOST_EXPONENT)
    }

    /// A sample with this error.
    fn with_error(&mut self, z: i32, theta: u8) -> Sample {
        (self.mantissa(29), self.exponent(), z, theta)
    }

    /// Any sample, its a cut or not.
    fn any(&mut self) -> Sample {
        let (z, theta) = (self.mantissa(30), self.exponent());
        self.with_error(z, theta)
    }

    /// A sample whose a is not cut.
    fn uncut(&mut self) -> Sample {
        let theta = self.exponent();
        let z = self.mantissa((38 - i64::from(theta)).min(30));
        self.with_error(z, theta)
    }

    fn several(&mut self, count: usize, sample: fn(&mut Readings) -> Sample) -> Vec<Sample> {
        (0..count).map(|_| sample(self)).collect()
    }

    /// Samples of which this is one, at a place; no other a is cut.
    fn one_of(&mut self, count: usize, place: usize, sample: impl Fn(&mut Readings, Sample) -> Sample) -> Vec<Sample> {
        let mut samples = self.several(count, Readings::uncut);
        samples[place] = sample(self, samples[place]);
        samples
    }
}

/// All vectors of readings.
pub fn readings_vectors() -> Vec<ReadingsVector> {
    let mut all = Readings::new(0x7265_6164);
    all.put("worked example", MEAN, worked_lists());
    every_exponent(&mut all);
    zeros(&mut all);
    parts_of_a_unit(&mut all);
    beside_the_cut(&mut all);
    ends_of_the_power(&mut all);
    beside_a_half(&mut all);
    any_lists(&mut all);
    from_blocks(&mut all);
    lengths_turned_down(&mut all);
    exponents_turned_down(&mut all);
    mantissas_turned_down(&mut all);
    for (at, one) in SPOILERS.iter().enumerate() {
        all.each("two causes", 11, &SPOILERS[at + 1..], |all, other| {
            let mut lists = Lists::from(all.several(4, Readings::uncut));
            one(&mut lists);
            other(&mut lists);
            lists
        });
    }
    all.list
}

/// The answers of accepted lists.
const MEAN: u8 = 0;
const FLOOR: u8 = 1;

/// The specification's example: samples 0, 1 and 7 of its longer example.
pub fn worked_lists() -> [Sample; 3] {
    [(0, 3, -201_326_592, 4), (300_937, 4, 66_807_927, 4), (-18_193_141, 3, -116_024_587, 3)]
}

/// For each ξ the ends of Y, and for each θ the ends of Z and of what is not cut.
fn every_exponent(all: &mut Readings) {
    for exponent in 1..=MOST_EXPONENT {
        let (y, z) = ((1 << 29) - 1, (1 << 30) - 1);
        let outputs = [y, -y, 1, -1, y - 1, 1 - y, 1 << 28, -3];
        let mut samples = outputs.map(|y| (y, exponent, all.random.between(-9, 9) as i32, 9));
        all.put("Y at its ends", MEAN, samples);
        for (sample, z) in samples.iter_mut().zip([z, -z, z - 1, 1 - z, 1 << 29, 1, -1]) {
            (sample.2, sample.3) = (z, exponent);
        }
        all.put("Z at its ends", u8::from(exponent > 8), samples);
    }
}

/// A Y, a Z, or both are 0, with each exponent; the power is 0, or not.
fn zeros(all: &mut Readings) {
    for exponent in 1..=MOST_EXPONENT {
        let other = all.exponent();
        let nothing = (0, exponent, 0, other);
        all.put("all is 0", MEAN, [nothing]);
        all.put("zeros among others", MEAN, [(0, other, -7, 20), nothing, (-5, exponent, 0, exponent)]);
    }
    all.put("all is 0", MEAN, [(0, 1, 0, 24); 128]);
    all.each("errors below 1/256", MEAN, 1..=21, |all, theta| {
        let most = (1 << (22 - theta)) - 1;
        [most, -most, 1, -1].map(|z| all.with_error(z, theta))
    });
}

/// 256·|error| is a whole number, or a little more or less, with both signs.
fn parts_of_a_unit(all: &mut Readings) {
    for theta in 1..=21 {
        let unit = 1 << (22 - theta);
        let most = ((1 << 30) / unit).min(65_536) - 1;
        let a = 1 + all.random.below(most as u64 - 1) as i32;
        all.each("parts of a unit", MEAN, [0, 1, unit / 2, -1], |all, part| {
            [1, -1].map(|sign| all.with_error(sign * (a * unit + part), theta))
        });
        let sample = all.with_error(-a * unit - 1, theta);
        all.put("a part of a unit", MEAN, [sample]);
    }
}

/// The least and the greatest |Z| with this a and θ, where there are any.
fn with_a(a: i64, theta: u8) -> Option<[i32; 2]> {
    let [least, most] = match theta {
        0..=22 => [a << (22 - theta), ((a + 1) << (22 - theta)) - 1],
        _ => [a >> (theta - 22); 2],
    };
    let fits = |z: i64| z < 1 << 30 && magnitude(z as i32, theta) == i128::from(a);
    (fits(least) && fits(most)).then_some([least as i32, most as i32])
}

/// a of 65532 to 65540 for each θ that has it, alone. One a of 65535, 65536 or the greatest there is, at the first, a
/// middle or the last place.
fn beside_the_cut(all: &mut Readings) {
    for (theta, a) in pairs(8..=MOST_EXPONENT, [65_532, 65_534, 65_535, 65_536, 65_537, 65_540]) {
        let sign = all.random.sign() as i32;
        if let Some([least, most]) = with_a(a, theta) {
            let samples = [least, -most].map(|z| all.with_error(sign * z, theta));
            all.put("a beside 65535", u8::from(i128::from(a) > MOST_A), samples);
        }
    }
    for (count, place) in [(1, 0), (2, 0), (2, 1), (5, 2), (128, 0), (127, 126), (128, 127)] {
        for (z, theta) in [(65_535, 22), (-65_536, 22), (1 - (1 << 30), MOST_EXPONENT)] {
            let samples = all.one_of(count, place, |all, _| all.with_error(z, theta));
            all.put("one a at the cut or beyond", u8::from(z != 65_535), samples);
        }
    }
}

/// The least power above 0, and the greatest, as a mean and as a floor.
fn ends_of_the_power(all: &mut Readings) {
    for count in [1, 2, 3, 100, 127, 128] {
        let mut samples = vec![(0, 24, 0, 1); count];
        samples[count - 1] = all.with_error(-(1 << 21), 1);
        all.put("the least power", MEAN, samples);
        for (number, z, theta) in [(MEAN, 65_535, 22), (MEAN, 1 - (1 << 30), 8), (FLOOR, (1 << 30) - 1, 24)] {
            let sample = all.with_error(z, theta);
            all.put("the greatest power", number, vec![sample; count]);
        }
    }
}

/// The part of an odd number by which a quotient of 53 digits is more than its
/// digits; `sum` is not less than that number.
fn remainder(sum: i128, odd: i128) -> i128 {
    let missing = 53 - bit_length(sum / odd);
    (sum << missing) % odd
}

/// Quotients as close to the middle of two neighbours as N lets them be, on either side. None is right in the middle:
/// with a power of two for N there are at most 39 digits, and with another a middle is never reached.
fn beside_a_half(all: &mut Readings) {
    for (n, more) in pairs([3usize, 5, 6, 7, 11, 24, 63, 100, 127], [0, 1]) {
        let odd = n as i128 >> n.trailing_zeros();
        all.find("a quotient beside a half", MEAN, 1, |all| {
            let samples = all.several(n, Readings::uncut);
            let sum: i128 = samples.iter().map(|sample| magnitude(sample.2, sample.3).pow(2)).sum();
            (sum >= odd && remainder(sum, odd) == odd / 2 + more).then_some(samples)
        });
    }
}

fn any_lists(all: &mut Readings) {
    all.each("every length", MEAN, 1..=MOST_LENGTH, |all, n| all.several(n, Readings::uncut));
    for _ in 0..80 {
        let count = all.random.between(1, 12) as usize;
        let sample = if all.random.chance(1, 2) { Readings::any } else { Readings::uncut };
        let samples = all.several(count, sample);
        let is_cut = samples.iter().any(|sample| magnitude(sample.2, sample.3) > MOST_A);
        all.put("any lists", u8::from(is_cut), samples);
    }
}

/// What an arbitrary block on a state hands out, if it is accepted.
pub fn handed_out(random: &mut Random, state: &mut State) -> Option<Lists> {
    let settings = state.settings;
    let (loudness, aim) = (random.loudness(), random.aim());
    let (samples, gains) = random.samples(&settings, loudness);
    let training = random.training(&settings, aim);
    let inputs = Inputs { samples: &samples, gains: &gains, training: &training };
    let mut outputs = Outputs::zeros(settings.n.into());
    let number = run(state, inputs, &mut outputs);
    let Outputs { y, xi, z, theta, .. } = outputs;
    (number == 0).then_some(Lists { y, xi, z, theta, readings: settings.n.into() })
}

/// Means and floors of blocks on sound states, as many of each.
fn from_blocks(all: &mut Readings) {
    let mut left = [40; 2];
    while left != [0; 2] {
        let mut settings = all.random.settings();
        settings.n = settings.n.min(1.max(settings.p - 1).max(40));
        let mut state = all.random.state(settings);
        let Some(lists) = handed_out(&mut all.random, &mut state) else { continue };
        let number = u8::from(lists.inputs().magnitudes().iter().any(|&a| a > MOST_A));
        if left[usize::from(number)] > 0 {
            all.put("handed out by a block", number, lists);
            left[usize::from(number)] -= 1;
        }
    }
}

/// Lists of one length that is 0 or above 128; some are 1 to 128 to whoever counts in a byte. Each list alone shorter,
/// longer or empty, by one or more; all others empty; two of another length.
fn lengths_turned_down(all: &mut Readings) {
    let counts = [0, 129, 130, 192, 255, 256, 257, 384, 1024];
    all.each("a length of none", 11, counts, |all, count| all.several(count, Readings::uncut));
    for (count, place) in pairs([2, 7, 128], 0..5) {
        let lengths = [count - 1, count + 1, 0, count + 128];
        all.each("one list of another length", 11, lengths, |all, length| {
            let mut lists = Lists::from(all.several(count, Readings::uncut));
            resize(&mut lists, place, length);
            lists
        });
    }
    for place in 0..5 {
        let mut lists = Lists::default();
        resize(&mut lists, place, 1);
        all.put("one list that is not empty", 11, lists);
        let mut lists = Lists::from(all.several(3, Readings::uncut));
        let mut shorter = lists.clone();
        resize(&mut lists, place, 3 + 256);
        all.put("one list longer by 256", 11, lists);
        [place, (place + 1) % 5].into_iter().for_each(|place| resize(&mut shorter, place, 2));
        all.put("two lists of another length", 11, shorter);
    }
}

/// Samples one of which is spoiled: the only one, the first, a middle and the last.
fn at_each_place(all: &mut Readings, about: &'static str, spoiled: impl Fn(Sample) -> Sample) {
    all.each(about, 11, [(1, 0), (2, 0), (5, 2), (128, 127)], |all, (count, place)| {
        all.one_of(count, place, |_, sample| spoiled(sample))
    });
}

/// ξ or θ of 0, 25, 255 and others, also of a zero.
fn exponents_turned_down(all: &mut Readings) {
    for exponent in [0, 25, 255] {
        at_each_place(all, "a xi outside 1 to 24", |(y, _, z, theta)| (y, exponent, z, theta));
        at_each_place(all, "a theta outside 1 to 24", |(y, xi, z, _)| (y, xi, z, exponent));
    }
    for exponent in [0, 25, 26, 31, 32, 128, 254] {
        all.put("a xi of a zero", 11, [(0, exponent, 0, 1)]);
        all.put("a theta of a zero", 11, [(0, 1, 0, exponent)]);
    }
}

/// |Y| of 2^29 and more, |Z| of 2^30 and more.
fn mantissas_turned_down(all: &mut Readings) {
    for (end, larger, is_y) in [(1 << 29, 1 << 30, true), (1 << 30, 3 << 29, false)] {
        let spoiled = |(y, xi, z, theta): Sample, a: i32| if is_y { (a, xi, z, theta) } else { (y, xi, a, theta) };
        for a in [end, -end, i32::MIN] {
            at_each_place(all, "a mantissa too large", |sample| spoiled(sample, a));
        }
        let others = [end + 1, -end - 1, larger, i32::MAX, i32::MIN + 1];
        all.each("a mantissa too large", 11, others, |all, a| [spoiled(all.uncut(), a)]);
    }
}
